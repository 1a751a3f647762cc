# file: reference_held.cpp
# The nodes visited have 64 flags, however many nodes there are.
s/on_route_\[node\]/on_route_[node % 64]/g
