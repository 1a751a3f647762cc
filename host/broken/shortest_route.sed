# file: reference_held.cpp
# Ask shows the shortest of the routes, not the first by node numbers.
s/        shown = found;/        if (shown.empty() || found.size() < shown.size()) shown = found;/
s/^        return true;$/        return false;/
