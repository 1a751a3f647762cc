# file: reference.cpp
# Strip makes a pair that is an edge already.
s/if (edge.from == kept.from && edge.to == last.to) return false;/(void)edge;/
