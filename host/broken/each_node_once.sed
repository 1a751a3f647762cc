# file: plain_route.cpp
# The search for an unordered route comes to each node once, however little another way there orders.
s/if (within(stops_\[stop\].after, after)) return true;/return true;/
