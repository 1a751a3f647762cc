# file: reference_held.cpp
# Wrong program 1: variables 1 and 2 mean different addresses.
s/const Assignment address = {0, one, two};/if (rule.right_variable == 2 \&\& one == two) continue; const Assignment address = {0, one, two};/
