# file: reference.cpp
# Strip joins edges whose weights differ.
s/if (kept.weight != last.weight) return false;//
