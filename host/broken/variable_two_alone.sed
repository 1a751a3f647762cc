# file: reference_read.cpp
# A right side has variable 2 where the left side has none.
s/if (rule.right_variable == 2) return rule.left_variable != 1;/if (rule.right_variable == 2) return false;/
