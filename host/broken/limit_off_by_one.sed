# file: plain.cpp
# 511 nodes and a cut of one edge are refused.
s/graph.node_count + fences > most_nodes/fences > 0 \&\& graph.node_count + fences >= most_nodes/
