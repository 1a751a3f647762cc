# file: plain.cpp
# A byte past the length written is changed.
s/    write(file, length, graph, cut, out);/    write(file, length, graph, cut, out); if (written < room) out[written] = 0;/
