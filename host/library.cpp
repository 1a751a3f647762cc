// See library.hpp.
#include "library.hpp"

#include <algorithm>

#include "fence.h"
#include "lent.hpp"

namespace library {
namespace {

using reference::Bytes;
using reference::Number;

// The file, where a read past its end would be fatal. An empty one has no address at all.
class Input {
public:
    explicit Input(const Bytes &file) : file_(file), data_(file.empty() ? nullptr : brink().copy(file)) {}

    const std::uint8_t *data() const { return data_; }
    std::size_t size() const { return file_.size(); }
    void check() const {
        if (!std::equal(file_.begin(), file_.end(), data_)) throw std::logic_error("the file itself changed");
    }

private:
    static Brink &brink() {
        static Brink pages;
        return pages;
    }

    const Bytes &file_;
    const std::uint8_t *data_;
};

void check_refusal(Number answer, Number place, bool zeros) {
    if (answer == 0 && place != 0) throw std::logic_error("accepted, with a place");
    if (answer != 0 && !zeros) throw std::logic_error("refused, with numbers beside answer and place");
}

reference::Report report(const fence_report &r, const Input &input, const Lent<std::uint8_t> &out) {
    input.check();
    check_refusal(r.answer, r.place, r.fences == 0 && r.weight == 0 && r.length == 0);
    return {r.answer, r.place, r.fences, r.weight, out.taken(r.length)};
}

}  // namespace

reference::Report run(const Bytes &file, std::size_t room) {
    const Input input(file);
    Lent<std::uint8_t> out(room);
    return report(fence_run(input.data(), input.size(), room ? out.data() : nullptr, room), input, out);
}

reference::Shown ask(const Bytes &file, Number order, std::size_t room) {
    const Input input(file);
    Lent<std::uint16_t> route(room);
    const fence_route r = fence_ask(input.data(), input.size(), order, room ? route.data() : nullptr, room);
    input.check();
    check_refusal(r.answer, r.place, r.length == 0);
    const std::vector<std::uint16_t> shown = route.taken(r.length);
    return {r.answer, r.place, {shown.begin(), shown.end()}};
}

reference::Report strip(const Bytes &file, Number count, std::size_t room) {
    const Input input(file);
    Lent<std::uint8_t> out(room);
    return report(fence_strip(input.data(), input.size(), count, room ? out.data() : nullptr, room), input, out);
}

}  // namespace library
