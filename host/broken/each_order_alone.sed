# file: plain.cpp
# Wrong program 4: each open order is cut by itself, and the sets are joined.
s/const Cut cut = chosen(graph, fits, open_orders(graph, fits));/Cut cut; for (unsigned i = 0; i < 32; ++i) cut.edges |= chosen(graph, fits, open_orders(graph, fits) \& 1u << i).edges; for (unsigned i = 0; i < graph.edge_count; ++i) if (cut.edges[i]) cut.weight += graph.edges[i].weight;/
