# file: reference_held.cpp
# Wrong program 2: nodes are marked as seen for good while searching.
s/on_route_\[node\] = false;//
