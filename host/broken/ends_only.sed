# file: reference_held.cpp
# Wrong program 3: a rule is looked for only between the two ends.
s/const bool by_one_between = (before\[p\] & after\[q\]).any();/const bool by_one_between = false;/
