// rules.hpp: the rules of the examples, like those of two architectures. They don't count dependencies between
// accesses.
#ifndef EXAMPLES_RULES_HPP
#define EXAMPLES_RULES_HPP

#include <fence_request.hpp>

namespace example {

using Rules = std::vector<fence::Rule>;

// Everything but a store and a later load keeps its order, whatever the addresses.
inline Rules x86_like() {
    using namespace fence;
    return Request().rule(store(1), store(2)).rule(load(1), load(2)).rule(load(1), store(2)).rules;
}

// Only accesses to one address keep their order, but for a store and a later load.
inline Rules arm_like() {
    using namespace fence;
    return Request().rule(store(1), store(1)).rule(load(1), load(1)).rule(load(1), store(1)).rules;
}

}  // namespace example

#endif
