# file: reference_cut.cpp
# Of several least cuts the last list wins.
s/!(cut < best)/!(best < cut)/
