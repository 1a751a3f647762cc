// Library and reference side by side, for tests that both must pass.
#ifndef PROGRAMS_HPP
#define PROGRAMS_HPP

#include "library.hpp"
#include "reference.hpp"

struct Program {
    const char *name;
    reference::Report (*run)(const reference::Bytes &, std::size_t);
    reference::Shown (*ask)(const reference::Bytes &, reference::Number, std::size_t);
    reference::Report (*strip)(const reference::Bytes &, reference::Number, std::size_t);
};

constexpr Program programs[] = {
    {"reference", reference::run, reference::ask, reference::strip},
    {"library", library::run, library::ask, library::strip},
};

constexpr std::size_t ample = 16384;  // room for whatever can be written

#endif
