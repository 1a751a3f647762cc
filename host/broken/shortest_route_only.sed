# file: plain_route.cpp
# Where the shortest route is ordered no other is looked for, so an unordered one is missed.
s/return orders_its_ends(order, path) ? longer(order, left, path) : path.length;/return orders_its_ends(order, path) ? 0 : path.length;/
