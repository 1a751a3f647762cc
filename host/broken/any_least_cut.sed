# file: plain_cut.cpp
# The tie rule is forgotten: some cut of least weight is as good as the first.
s/if (lighter.found) best = lighter.cut;/return lighter.found ? lighter.cut : best;/
