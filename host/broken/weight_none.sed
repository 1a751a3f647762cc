# file: plain_read.cpp
# Weight 0 passes, and with it what was a refusal.
s/e\.weight == 0 || //
