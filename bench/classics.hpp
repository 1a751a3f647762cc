// Classic algorithms one after another, each with the orders that its proof of correctness needs.
#ifndef CLASSICS_HPP
#define CLASSICS_HPP

#include "shapes.hpp"

namespace corpus {

void classics(Builder &builder);

}  // namespace corpus

#endif
