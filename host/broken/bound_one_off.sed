# file: plain_cut.cpp
# The bound gives up where what must be spent is just what may be.
s/if (lower.total > allowance) return best;/if (lower.total > 0 \&\& lower.total >= allowance) return best;/
