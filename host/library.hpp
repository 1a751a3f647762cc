// The library's three functions in the reference's terms, with everything checked that every call must keep: guard
// entries, entries past the length written, the input itself, zeros beside a refusal. A miss is thrown.
#ifndef LIBRARY_HPP
#define LIBRARY_HPP

#include "reference.hpp"

namespace library {

reference::Report run(const reference::Bytes &file, std::size_t room);
reference::Shown ask(const reference::Bytes &file, reference::Number order, std::size_t room);
reference::Report strip(const reference::Bytes &file, reference::Number count, std::size_t room);

}  // namespace library

#endif
