# file: plain_walk.cpp
# The walk turns back too early: nodes ordered after the first are never walked on.
s/ allowed = ~visited & ~(after & into_);/ allowed = ~visited \& ~after;/
