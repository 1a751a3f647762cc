/*
 * fence.h: the lightest set of memory fences for a control-flow graph.
 *
 * A request file holds a control-flow graph of stores, loads and fences, the rules by which an
 * architecture keeps two accesses in order, and the orders that a program needs.
 *
 *   fence_run     writes the file with fences added, so that every order asked for is held
 *   fence_ask     says whether one order is held, and shows a route where it isn't
 *   fence_strip   takes added fences off again
 *
 * A complete program. It prints "2 fences of weight 2, 108 bytes":
 *
 *   #include <stdio.h>
 *   #include "fence.h"
 *
 *   static const uint8_t file[] =
 *       "ND\0\7" "ND\0\11" "ND\1\7" "ND\1\11"               // store 7, store 9, load 7, load 9
 *       "ED\0\0\1\0\3\0" "ED\1\0\2\0\1\0" "ED\1\0\3\0\1\0"  // 0 to 1 weight 3, 1 to 2, 1 to 3
 *       "RU\3\0\2\0" "RU\2\0\3\0"                           // any to fence, fence to any
 *       "RU\0\1\0\2" "RU\1\1\1\2"                           // store to store, load to load
 *       "OR\0\0\2\0" "OR\0\0\3\0" "OR\0\0\1\0"              // 0 before 2, 0 before 3, 0 before 1
 *       "EN";
 *
 *   int main(void) {
 *       uint8_t out[FENCE_MAX_FILE];
 *       fence_report r = fence_run(file, sizeof file - 1, out, sizeof out);
 *       if (r.answer != 0) {
 *           printf("%s (answer %d, place %d)\n", fence_sentence(r.answer), (int)r.answer, (int)r.place);
 *           return 1;
 *       }
 *       printf("%d fences of weight %d, %d bytes\n", (int)r.fences, (int)r.weight, (int)r.length);
 *       return 0;
 *   }
 *
 * For all three functions:
 *
 *   Memory    Nothing is allocated and nothing is kept between calls. Only the lent buffer is written.
 *   Threads   Any number of threads may call at once, each with a buffer of its own to write to.
 *   Stack     FENCE_RUN_STACK, FENCE_ASK_STACK and FENCE_STRIP_STACK bytes are enough, as measured.
 *   Pointers  A buffer is a pointer and the number of its entries. Where the number is 0 the pointer
 *             may be null. The file and the lent buffer must not overlap.
 *   Input     Any bytes at all may be handed over as a file: what isn't a request is refused.
 *   Refusals  A refusal has an answer other than 0. It writes nothing, and every number beside answer
 *             and place is 0.
 *   Buffers   What lies in the lent buffer past the length written keeps its value.
 *   Time      Every call ends. The searches of run and ask are exact, so the worst case grows exponentially
 *             with the graph; bench/TIMES.md has figures for graphs like those of real procedures. A call can't be
 *             ended from outside: where that matters make it in a process of its own, with a time limit.
 *
 * The request file. Numbers are little-endian; every record starts with a two-byte mark. Records stand
 * in the order of this table, as many of each as wished, and one EN ends the file.
 *
 *   ND  kind (1), address (1)                        a node     at most 512
 *   ED  from (2), to (2), weight (2)                 an edge    at most 1,024
 *   RU  left kind, variable, right kind, variable    a rule     at most 32
 *   OR  first (2), second (2)                        an order   at most 32
 *   EN
 *
 * Kind 0 is a store, 1 a load, 2 the full fence, and 3, in rules only, stands for any. A store or load
 * has an address from 0 to 255, a fence has 0. A rule's side of kind 0 or 1 has a variable, 1 or 2, that
 * stands for an address (the first one used is 1); other sides have 0. Nodes, edges and orders are
 * numbered from 0 in file order; so are the records, over the whole file.
 *
 * The answers, and what the place beside them means. Of several the lowest is given, and of its places
 * the first.
 *
 *    0  done                                                                    0
 *    1  unknown or misplaced mark, record cut short, no EN, bytes after EN      byte offset
 *    2  too many records of one mark                                            record
 *    3  node: kind above 2, or a fence with an address                          record
 *    4  edge: an end is no node, weight 0, or the pair stands twice             record
 *    5  rule: kind above 3, or a variable not as above                          record
 *    6  order: a node is missing, the ends are equal, or it stands twice        record
 *    7  the rules lack "any to fence" or "fence to any"                         0
 *    8  ask: there is no order of this number                                   0
 *    9  run: with the fences there would be over 512 nodes or over 1,024 edges  0
 *   10  strip: fewer nodes than the count, or one that must stay (see there)    0
 *   11  the lent buffer is too short (ask: below 512 entries)                   0
 *
 * fence_sentence says an answer in words. In C++ fence_request.hpp names the record, the field and the value too.
 */
#ifndef FENCE_H
#define FENCE_H

#include <stddef.h>
#include <stdint.h>

#ifdef __cplusplus
extern "C" {
#endif

/* Of this header and its archive. While the first number is 0, a new record, answer or limit raises the second. */
#define FENCE_VERSION "0.1.0"
#define FENCE_VERSION_MAJOR 0
#define FENCE_VERSION_MINOR 1
#define FENCE_VERSION_PATCH 0

/* No accepted file is longer, and none is written that is: a buffer of this size is never too short. */
#define FENCE_MAX_FILE 10626

/* What fence_ask wants of its buffer, whatever the route: an entry for each node there can be. */
#define FENCE_ROUTE_ENTRIES 512

/*
 * Bytes of stack to give a thread that has a small one. They are measured, not proved. Run's search goes one level
 * deeper for each edge of the cut it tries and takes 672 bytes for it; the walk of run and ask takes 160 for
 * each node of a route. The deepest calls met leave a tenth of run's number free, a tenth of ask's and a fifth
 * of strip's.
 */
#define FENCE_RUN_STACK 1048576
#define FENCE_ASK_STACK 262144
#define FENCE_STRIP_STACK 65536

/* What run and strip return. */
typedef struct {
    uint64_t answer; /* 0, or why the file was refused */
    uint64_t place;  /* where in the file, for answers 1 to 6; else 0 */
    uint64_t fences; /* run: fences added; strip: fences removed */
    uint64_t weight; /* run: of the edges cut; strip: of the edges joined again */
    uint64_t length; /* bytes written */
} fence_report;

/* What ask returns. */
typedef struct {
    uint64_t answer; /* 0, or why the file was refused */
    uint64_t place;  /* where in the file, for answers 1 to 6; else 0 */
    uint64_t length; /* nodes of the route written; 0 means that the order is held */
} fence_route;

/*
 * Writes the file with fences added to `out`: on the edges of least weight such that each route of an order
 * that doesn't keep its two nodes in order goes over one of them; of several such sets of edges, on the one
 * whose rising list of numbers comes first. A route that keeps them in order, by the rules or by a fence that
 * stands on it, needs none. No lighter set of edges would leave all orders held. Fence nodes follow the old
 * nodes. A cut edge leads to its fence, at its own place, and an edge of the same weight from there on is
 * added at the end: 12 bytes more for each fence. Where all orders are held the file is copied; so a second
 * run changes nothing.
 * Run never moves or drops a fence that it finds. After orders went, or came one by one, what is there may
 * weigh more than today's orders need: strip, then run gives the least for them.
 * Answers: 0, 1 to 7, 9, 11.
 */
fence_report fence_run(const uint8_t *file, size_t file_len, uint8_t *out, size_t out_len);

/*
 * Is order number `order` (from 0) held: do the rules keep its two nodes in order on every route from the
 * first to the second? If so, the length is 0. If not, `route` gets the node numbers of a route that
 * doesn't: of all such routes the first by node numbers, compared place by place.
 * Answers: 0, 1 to 8, 11.
 */
fence_route fence_ask(const uint8_t *file, size_t file_len, uint64_t order, uint16_t *route,
                      size_t route_len);

/*
 * Takes nodes off until `count` are left, and writes the file without them to `out`. The highest node must
 * be as run adds it: a full fence, with one edge to it and one, the last of all, from it, both of one
 * weight; these two become one edge again, at the place of the first, which must not be an edge already. No
 * order may name a node that goes. Any miss, and a `count` above the number of nodes, is answer 10. With
 * `count` the number of nodes the file is copied.
 * Answers: 0, 1 to 7, 10, 11.
 */
fence_report fence_strip(const uint8_t *file, size_t file_len, uint64_t count, uint8_t *out,
                         size_t out_len);

/* An answer in words, for people; 0 and numbers that no function gives have a sentence too. */
#ifndef __cplusplus
static /* in C each file has its own; in C++ an inline function is one for all */
#endif
inline const char *fence_sentence(uint64_t answer) {
    static const char *const sentences[] = {
        "The file is accepted.",
        "A record can't be read here, or the file doesn't end in one EN.",
        "There are more records of this mark than the limit allows.",
        "This node's kind is above 2, or it is a fence with an address.",
        "This edge has an end that is no node, or weight 0, or stands twice.",
        "This rule has a kind above 3, or a variable that doesn't belong there.",
        "This order names a missing node, or one node twice, or stands twice.",
        "The rules lack wildcard to fence, or fence to wildcard.",
        "There is no order of this number.",
        "With its fences the graph would pass 512 nodes or 1,024 edges.",
        "The count is above the nodes, or a node that goes is named by an order or isn't as run adds it.",
        "The lent buffer is too short.",
    };
    return answer < sizeof sentences / sizeof sentences[0] ? sentences[answer] : "This answer is unknown.";
}

#ifdef __cplusplus
}
#endif

#endif
