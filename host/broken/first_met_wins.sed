# file: reference_read.cpp
# The first refusal met wins, not the lowest.
s/return a.answer != b.answer ? a.answer < b.answer : a.place < b.place;/return a.place < b.place;/
