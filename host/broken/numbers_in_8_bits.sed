# file: reference_read.cpp
# The numbers of nodes are cut to 8 bits where edges are written.
s/put(out, e.from, 2), put(out, e.to, 2)/put(out, e.from % 256, 2), put(out, e.to % 256, 2)/
