# file: reference_cut.cpp
# All routes of an open order are cut, also those that order its ends.
s/if (!orders_its_ends(request, route)) all.push_back(std::move(route));/if (!first_unordered(request, order).empty()) all.push_back(std::move(route));/
