/* The calls of the serial dual module, proved, for C and C++.
 *
 * tools/build-library.sh builds the archive to link, target/lib/libfusion_blossom.a, and the shared object beside it.
 *
 * Memory is the host's: a block of FB_BLOCK(V, E, N, L) words, which holds the graph and all that is stored of it
 * (docs/LAYOUT.md), and a scratch of FB_SCRATCH(V, E) words. Both may hold anything before fb_open; the scratch may hold
 * anything before any call. Three calls take a second block of the same length, which may hold anything. No two
 * stretches that are lent to one call may overlap.
 *
 * Every call writes its answer to the front of `answer`, a list of at least 5 numbers, and gives back how many numbers
 * that are: first the case, then its values. A list of 2 to 4 numbers is refused 1; in a list of 0 or 1 numbers nothing
 * can be told: then nothing happens, and 0 is given back. A refusal, FB_REFUSED and its number, leaves all memory
 * unchanged for 1 to 9, 14, 16 and 17; 10 to 12, and 13 after preparing, leave what preparation leaves, and so does 15
 * once prepared. A call for all clusters that is refused leaves the block unchanged whatever the number.
 *
 * hosts/decode.c and hosts/decode.rs are hosts that work, hosts/lines.c is one for records.
 */
#ifndef FUSION_BLOSSOM_H
#define FUSION_BLOSSOM_H

#include <stdbool.h>
#include <stddef.h>
#include <stdint.h>

#ifdef __cplusplus
extern "C" {
#endif

/* Limits. Sizes, weights and ends of edges beyond them are refused 4 by fb_open; a growth that would lead beyond them
 * is refused 12. */
#define FB_MOST_VERTICES 1024        /* V, from 1; virtual vertices among them */
#define FB_MOST_EDGES 4096           /* E, from 1; the ends of an edge differ, parallel edges are allowed */
#define FB_MOST_NODES 1024           /* N, from 1: defects and blossoms, opened ones too, since the last fb_clear */
#define FB_MOST_STORE 65536          /* L, from 0 */
#define FB_MOST_CIRCLE 63            /* members of a blossom, from 3, an odd number; beyond it refused 7 */
#define FB_MOST_WEIGHT 1000000       /* weights, from 0 */
#define FB_MOST_DUAL 1000000000      /* dual variables and overgrown amounts */
#define FB_MOST_GROWTH 1100000000000 /* growth of a side */
#define FB_MOST_DISTANCE 1023000000  /* distances that are handed over; -1 where there is no way */
#define FB_MOST_VALUE 999999999      /* values of a sheet, from 0: ten-thousandths; beyond them refused 17 */

/* Words to lend. */
#define FB_BLOCK(v, e, n, l) (16 + 4 * (v) + 12 * (e) + 8 * (n) + (l))
#define FB_SCRATCH(v, e) (4 * (e) + ((v) < 2 * (e) ? (v) : 2 * (e)))
#define FB_ENTRIES(n) (5 * (n)) /* numbers of the list of entries */

/* List store L with which no call is refused 9: FB_STORE for defects alone, FB_STORE_BLOSSOMS for at most so many
   blossoms between two fb_clear, none of more than so many members. The lists of all outermost nodes together have at
   most 2 E + V entries; a call asks for as many again, a blossom for one more such part for each of its members; and
   the members of each blossom keep theirs. A blossom that was opened no longer counts. */
#define FB_STORE(v, e) (2 * (2 * (e) + (v)))
#define FB_STORE_BLOSSOMS(v, e, blossoms, members) ((2 + (blossoms) + (members)) * (2 * (e) + (v)))

/* Entries of list store above the lists of the nodes that are not in the circle with which no circle is refused 9: its
   at most FB_MOST_CIRCLE members and the blossom each take 2 E + V. It is proved of every block, whatever lists the
   other nodes have; a circle of 63 is refused 9 with one entry less. L has room for it where 2 E + V is at most 1,024. */
#define FB_STORE_CIRCLE(v, e) ((FB_MOST_CIRCLE + 1) * (2 * (e) + (v)))

enum { FB_STAY = 0, FB_GROW = 1, FB_SHRINK = 2 }; /* grow states */
enum { FB_DOWN = 0, FB_UP = 1 };                  /* directions: to shrink, to grow */
enum { FB_ANSWER = 5 };                           /* numbers that a list for an answer needs */
enum { FB_ENTRY = 5 };                            /* numbers of an entry of fb_group_max_update_length */
enum { FB_CALL = 4 };                             /* words of a call of fb_calls: its kind and three more */

/* Kinds of a call of fb_calls, with the words behind them; those that a kind has no use for may hold anything. */
enum {
    FB_CALL_DEFECT = 4,   /* vertex, grow state */
    FB_CALL_BLOSSOM = 5,  /* grow state, place, count: so many words from that place on in the list of circles */
    FB_CALL_STATE = 6,    /* node, grow state */
    FB_CALL_PREPARE = 7,  /* node, direction */
    FB_CALL_LENGTH = 8,   /* node, direction, 1 to prepare first or else 0 */
    FB_CALL_GROW = 9,     /* node, length */
    FB_CALL_ADVANCE = 11, /* node */
    FB_CALL_CLEAR = 13,   /* none */
    FB_CALL_VERTEX = 14,  /* node: its representative vertex */
    FB_CALL_NODE = 15,    /* node: fb_read_node */
    FB_CALL_GAP = 16,     /* edge */
};

/* Cases of an answer, with the values behind them.

   A conflict says that the gap to a peer is 0 or, where the peer grows too, that half of the gap is 0, rounded down. So
   at an odd gap of 1 two growing nodes conflict that do not touch. With even weights and nodes that grow by equal
   lengths from 0 on no such gap comes up. */
enum {
    FB_FREE = 0,      /* sign (1: below 0), length, 1 if the boundary is empty: the node may move so far */
    FB_UNLIMITED = 1, /* 1 if the boundary is empty */
    FB_CONFLICT = 2,  /* peer, the defect node that its growth came from, node, the same of it */
    FB_VIRTUAL = 3,   /* node, defect node, the virtual vertex that it has reached */
    FB_EXPAND = 4,    /* a blossom of dual variable 0 */
    FB_STOP = 5,      /* a defect of dual variable 0 */
    FB_STOP_PEER = 6, /* the same, the Grow peer that touches it, and that one's defect node */
    FB_DONE = 7,      /* fb_contacts: how many contacts */
    FB_NODE = 8,      /* the number of the new node */
    FB_PREPARED = 9,  /* how many passes */
    FB_VERTEX = 10,   /* a vertex */
    FB_REFUSED = 11,  /* the number of the refusal */
    FB_OPENED = 12,   /* fb_open_sheet: how many positive values became 0 */
    FB_VERDICT = 13,  /* fb_check_table: 1 yes, 0 no */
    FB_GROUP = 14,    /* how many conflicts and how many stops stand in the list of entries */
    FB_DEFECT = 15,   /* fb_read_node: vertex, grow state, parent (0: none, else its number + 1), dual variable */
    FB_BLOSSOM = 16,  /* the same of a blossom, with its first member in place of the vertex */
    FB_INNER = 17,    /* fb_gap: one node holds both sides of the edge */
    FB_OVER = 18,     /* fb_gap: by how much the growths of the edge exceed its weight */
    FB_GAP = 19,      /* fb_gap: the weight of the edge less its growths */
    FB_CALLS = 20,    /* fb_calls: how many calls were made, and how often memory was tested */
};

/* What a refusal's number means. */
static inline const char *fb_refusal_sentence(size_t number) {
    static const char *const sentences[] = {
        "no such refusal",
        "lent memory has a wrong length, or a stored size is out of range",
        "the block is not sound",
        "no such vertex, edge, node, direction or state",
        "a size, weight or edge end is out of range, or there are not E edges",
        "the vertex is virtual, a defect, held, or has a held side",
        "the node lies in a blossom",
        "the circle has an even count, fewer than 3 nodes, more than 63, or one of them twice",
        "N nodes exist already",
        "too little list store: a greater L helps",
        "an edge that this node does not hold on both sides would pass its weight",
        "shrinking by more than the dual variable, the top overgrown amount or the growth of a side",
        "a dual variable, overgrown amount or growth would pass its limit",
        "a full edge to a free vertex, or a side of growth 0: prepare first",
        "a round of a length below 1",
        "the node is not a blossom of dual variable 0, or once prepared it stops a debug build",
        "weights change before the first node, and once: a node exists, or an earlier change stands",
        "no value of the sheet is positive, or one is out of range",
    };
    return number < sizeof sentences / sizeof *sentences ? sentences[number] : sentences[0];
}

/* A graph of v vertices and e edges is opened in the block, with places for n nodes and a store of l words. Edges are
   three words each: left, right, weight. FB_DONE. Tested in this order: 4 for the sizes, 1, 3 for virtual vertices, 4
   for weights and ends. */
size_t fb_open(int64_t *block, size_t block_length, const int64_t *scratch, size_t scratch_length, const int64_t *edges,
               size_t edges_length, const int64_t *virtuals, size_t virtuals_length, size_t v, size_t e, size_t n,
               size_t l, size_t *answer, size_t answer_length);

/* The same with weights in decimals: a sheet of E values, whole ten-thousandths from 0 to FB_MOST_VALUE. With m the
   largest, the value t becomes twice the whole number nearest to 500,000 t / m, halves upward, so that m becomes
   1,000,000; it is written into the third word of its edge, which may hold anything before. FB_OPENED and how many
   positive values became 0: a graph with a weight of 0 lies outside the table equality until it is reweighted. Tested
   in this order: 4 for the sizes, 1, also for a sheet that is not E long, 3 for virtual vertices, 4 for ends, 17 for the
   sheet. Then it is an fb_open with the edges as they are now. */
size_t fb_open_sheet(int64_t *block, size_t block_length, const int64_t *scratch, size_t scratch_length, int64_t *edges,
                     size_t edges_length, const int64_t *sheet, size_t sheet_length, const int64_t *virtuals,
                     size_t virtuals_length, size_t v, size_t e, size_t n, size_t l, size_t *answer,
                     size_t answer_length);

/* A table from another decoder: the graph, its defects with their dual variables, the growth of each side (edge by
   edge: left, right), and for each defect in turn the distances to all v vertices. Everything is only read. FB_VERDICT
   and 1 for yes: weights are positive and every vertex reaches a virtual one, the distances are the shortest, the dual
   variables of two defects sum to at most their distance, none is above the distance to its nearest virtual vertex, and
   the growths are those that follow from distances and dual variables; 0 for no. Tested first, in this order: 4 for the
   sizes, 1 for a list of a wrong length, 4 for a number out of range or a defect listed twice. */
size_t fb_check_table(const int64_t *edges, size_t edges_length, const int64_t *virtuals, size_t virtuals_length,
                      const int64_t *defects, size_t defects_length, const int64_t *duals, size_t duals_length,
                      const int64_t *growths, size_t growths_length, const int64_t *distances, size_t distances_length,
                      size_t v, size_t e, size_t *answer, size_t answer_length);

/* The next node is a defect at a vertex, in a grow state: FB_NODE. */
size_t fb_insert_defect(int64_t *block, size_t block_length, int64_t *scratch, size_t scratch_length, size_t vertex,
                        size_t state, size_t *answer, size_t answer_length);

/* The next node is a blossom of the circle's nodes, an odd number of them from 3 to FB_MOST_CIRCLE: FB_NODE. */
size_t fb_insert_blossom(int64_t *block, size_t block_length, int64_t *scratch, size_t scratch_length,
                         const int64_t *circle, size_t circle_length, size_t state, size_t *answer,
                         size_t answer_length);

/* A blossom of dual variable 0 is opened, in any grow state: FB_DONE. Its members are outermost again, in Stay, and hold
   their sides; no growth changes. Its lists are free store; its number is not given out again before fb_clear, still
   counts as one of N, is refused 3 where it is named, and leaves the active list at the next renewal. Tested in this
   order: 1, 2, 3, 6, 15 for any other node, 9; then the node is prepared, and 15 is refused where a debug build of the
   Rust stops: on a block that calls have made it never does. */
size_t fb_remove_blossom(int64_t *block, size_t block_length, int64_t *scratch, size_t scratch_length, size_t node,
                         size_t *answer, size_t answer_length);

/* For one shot: pairs of words, an edge and a weight from 0 to FB_MOST_WEIGHT, which the edge takes until the next
   fb_clear: FB_DONE. Of an edge that is named twice the last weight stays; fb_clear gives every edge the weight with
   which it was opened. An empty list is accepted and leaves nothing that stands. Tested in this order, each number over
   the whole list: 1, also for an odd number of words, 2, 3 for an edge that the graph does not have, 4 for a weight out
   of range, 16 where a node exists, an opened blossom too, or an earlier list that named an edge stands. */
size_t fb_load_edge_modifier(int64_t *block, size_t block_length, const int64_t *scratch, size_t scratch_length,
                             const int64_t *pairs, size_t pairs_length, size_t *answer, size_t answer_length);

/* A node gets a grow state: FB_DONE. */
size_t fb_set_grow_state(int64_t *block, size_t block_length, const int64_t *scratch, size_t scratch_length,
                         size_t node, size_t state, size_t *answer, size_t answer_length);

/* A node is prepared to grow or shrink: FB_PREPARED. */
size_t fb_prepare(int64_t *block, size_t block_length, int64_t *scratch, size_t scratch_length, size_t node,
                  size_t direction, size_t *answer, size_t answer_length);

/* How far a node may grow or shrink, prepared first or as it is: FB_FREE to FB_STOP_PEER. */
size_t fb_max_update_length(int64_t *block, size_t block_length, int64_t *scratch, size_t scratch_length, size_t node,
                            size_t direction, bool first, size_t *answer, size_t answer_length);

/* A node grows by a length, below 0 it shrinks: FB_DONE. */
size_t fb_grow(int64_t *block, size_t block_length, int64_t *scratch, size_t scratch_length, size_t node,
               int64_t length, size_t *answer, size_t answer_length);

/* A node grows in the direction of its grow state by all of its length answer, if that is free with a limit: FB_DONE;
 * any other answer is handed back. */
size_t fb_advance(int64_t *block, size_t block_length, int64_t *scratch, size_t scratch_length, size_t node,
                  size_t *answer, size_t answer_length);

/* Everything but the graph is emptied: FB_DONE. */
size_t fb_clear(int64_t *block, size_t block_length, const int64_t *scratch, size_t scratch_length, size_t *answer,
                size_t answer_length);

/* The representative vertex of a node: FB_VERTEX. */
size_t fb_representative_vertex(const int64_t *block, size_t block_length, const int64_t *scratch,
                                size_t scratch_length, size_t node, size_t *answer, size_t answer_length);

/* A node with its dual variable: FB_DEFECT or FB_BLOSSOM. Its parent is the blossom that it lies in: 0 for a node that
   lies in none, or else the number of the blossom + 1. Nothing is written but the answer. Refused 1, 2, 3; a blossom
   that was opened is refused 3. Read before and after, it tells by how much fb_advance or a round moved a node. */
size_t fb_read_node(const int64_t *block, size_t block_length, const int64_t *scratch, size_t scratch_length,
                    size_t node, size_t *answer, size_t answer_length);
/* The gap of an edge: FB_INNER where one node holds both sides (the node itself, not a blossom that it lies in), else
   FB_OVER where the growths exceed the weight, else FB_GAP; of a free edge it is the weight. Nothing is written but the
   answer. On a block that calls have made it is never FB_OVER. Refused 1, 2, 3 for the number of an edge. */
size_t fb_gap(const int64_t *block, size_t block_length, const int64_t *scratch, size_t scratch_length, size_t edge,
              size_t *answer, size_t answer_length);

/* The growth of every side, left and right of edge 0, of edge 1, .., goes to a list of 2 E words: FB_DONE. */
size_t fb_read_table(const int64_t *block, size_t block_length, const int64_t *scratch, size_t scratch_length,
                     int64_t *list, size_t list_length, size_t *answer, size_t answer_length);

/* The contacts go to the front of a list of 3 E words, by rising edge: FB_DONE and how many. A contact is an edge whose
   two growths sum to its weight and whose sides belong to two different outermost nodes, or whose one held side faces a
   virtual vertex that is free. Three words each: the edge, the outermost node at its left end, that at its right end;
   -1 for the virtual vertex. The words behind the last one are kept. */
size_t fb_contacts(const int64_t *block, size_t block_length, const int64_t *scratch, size_t scratch_length,
                   int64_t *list, size_t list_length, size_t *answer, size_t answer_length);

/* All clusters at once. The active list has the nodes that were inserted, and those that left Stay, in that order,
   each once; renewal takes off the nodes in Stay. fb_prepare_all, fb_group_max_update_length and fb_grow_all renew it
   and then work on one node after the other, those in Shrink first, then those in Grow, each in the order of the list.
   They are tried on `second`, a block of the same length, and copied back only if no node is refused: a refusal, the
   number met first, leaves block and entries as they were. After 1 and 2 of the memory that is lent, and 14, second and
   scratch are untouched too; otherwise second ends equal to the block, word for word, and scratch all zero. On a block
   that calls have made no node is refused 2, 6 or 13. */

/* The active list is renewed: FB_DONE. */
size_t fb_renew_active_list(int64_t *block, size_t block_length, size_t *answer, size_t answer_length);

/* Every active node is prepared in the direction of its grow state: FB_DONE. Refused 1, 2; of a node 6, 9, 2. */
size_t fb_prepare_all(int64_t *block, size_t block_length, int64_t *second, size_t second_length, int64_t *scratch,
                      size_t scratch_length, size_t *answer, size_t answer_length);

/* How far all active nodes may move, prepared first: FB_FREE or FB_UNLIMITED, empty if one of them has an empty
   boundary, or FB_GROUP. With no active node it is unlimited and not empty. The list has FB_ENTRIES(N) numbers; an
   entry is the case of an answer, FB_CONFLICT to FB_STOP_PEER, and four values, 0 where there is none. First stand
   the conflicts, FB_CONFLICT to FB_EXPAND, in the order of the active list, then the stops by rising node; the rest of
   the list is kept, and all of it where the answer is not FB_GROUP. Refused 1, 2; of a node 6, 9, 2, 13. */
size_t fb_group_max_update_length(int64_t *block, size_t block_length, int64_t *second, size_t second_length,
                                  int64_t *scratch, size_t scratch_length, size_t *entries, size_t entries_length,
                                  size_t *answer, size_t answer_length);

/* A round: every node in Shrink shrinks by the length, then every node in Grow grows by it: FB_DONE. Refused 1, 2, 14
   for a length below 1; of a node 6, 9, 10, 11, 12, 2. */
size_t fb_grow_all(int64_t *block, size_t block_length, int64_t *second, size_t second_length, int64_t *scratch,
                   size_t scratch_length, int64_t length, size_t *answer, size_t answer_length);

/* Many calls, one after another, with one test of memory: FB_CALLS. `calls` has FB_CALL words each; a word below 0 is
   a length or names nothing. The answer of each stands in the next FB_ANSWER numbers of `answers`, as the call of that
   name tells it, the rest of them kept. As many are made as have room for their answer. Block, scratch and answers end
   as by the single calls, whatever is lent; a call that is refused is one of the list, and the others go on. An
   unknown kind, a circle that does not lie in the list of circles, and a word to prepare first above 1 are refused 3,
   after 1 and 2. Memory is tested before the first call, and again only where it is not certain that a call kept the
   block sound: on a block that calls have made, never. A number of words that is no multiple of FB_CALL is refused 1,
   and nothing is called. */
size_t fb_calls(int64_t *block, size_t block_length, int64_t *scratch, size_t scratch_length, const int64_t *calls,
                size_t calls_length, const int64_t *circles, size_t circles_length, size_t *answers,
                size_t answers_length, size_t *answer, size_t answer_length);

/* Records in, lines out, as the program cardrun has them (target/lib/libcardrun_lines.a; at most V 64, E 128, N 32, L
   2,000): the lines of the records go to the front of `lines`, up to the first that does not fit; the bytes behind them
   stay. How many bytes were written. */
size_t cardrun_lines(const uint8_t *records, size_t records_length, uint8_t *lines, size_t lines_length);

#ifdef __cplusplus
}
#endif

#endif
