# file: plain.cpp
# The cut's weight is cut to 16 bits.
s/return {0, 0, fences, cut.weight, written};/return {0, 0, fences, static_cast<std::uint16_t>(cut.weight), written};/
