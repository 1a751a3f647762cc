# file: reference.cpp
# The order's number is cut to 32 bits.
s/if (order >= reading.request.orders.size()) return {8, 0, {}};/order = static_cast<std::uint32_t>(order); if (order >= reading.request.orders.size()) return {8, 0, {}};/
