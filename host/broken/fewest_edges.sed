# file: reference_cut.cpp
# Wrong program 5: fewest edges in place of least weight.
s/problem.weights.push_back(request.edges\[edge\].weight);/problem.weights.push_back(1);/
