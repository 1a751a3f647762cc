# file: reference.cpp
# Ask says held every time.
s/return {0, 0, first_unordered(reading.request, reading.request.orders\[order\])};/return {0, 0, {}};/
