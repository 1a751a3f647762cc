// A program that may be broken, behind the library's interface: the reference, or with PLAIN the plain version's
// run. Compiled with the reference's namespace renamed, so that the sound reference can be linked beside it.
#include <algorithm>

#include "fence.h"
#include "plain.hpp"
#include "reference.hpp"

namespace {

fence_report handed(const reference::Report &r, uint8_t *out) {
    std::copy(r.out.begin(), r.out.end(), out);
    return {r.answer, r.place, r.fences, r.weight, r.out.size()};
}

}  // namespace

extern "C" fence_report fence_run(const uint8_t *file, size_t file_len, uint8_t *out, size_t out_len) {
#ifdef PLAIN
    return plain::run(file, file_len, out, out_len);
#else
    return handed(reference::run({file, file + file_len}, out_len), out);
#endif
}

extern "C" fence_route fence_ask(const uint8_t *file, size_t file_len, uint64_t order, uint16_t *route,
                                 size_t route_len) {
    const reference::Shown s = reference::ask({file, file + file_len}, order, route_len);
    std::copy(s.route.begin(), s.route.end(), route);
    return {s.answer, s.place, s.route.size()};
}

extern "C" fence_report fence_strip(const uint8_t *file, size_t file_len, uint64_t count, uint8_t *out,
                                    size_t out_len) {
    return handed(reference::strip({file, file + file_len}, count, out_len), out);
}
