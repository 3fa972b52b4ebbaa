/* Decodes a planar surface-code patch of distance 15 with the exported calls.   decode [SEED]
 *
 * Vertices are the stabilizers of 15 rows and 14 columns and two virtual ones at the left and right side; edges are
 * data qubits, each of weight 2. Random qubits flip; the stabilizers that see an odd number of flips are defects. All
 * defects grow together, in rounds: the group is asked how far all may grow, and all grow by that length, or the
 * conflicts are listed. Those that meet are paired, one that meets a side is matched with it, and one that meets a
 * paired one goes to its nearest side. Weights are even and all growing defects have grown equally far, so no gap
 * between two of them is odd, and a conflict is a meeting (fusion_blossom.h, FB_CONFLICT); the host checks that, and
 * that its correction leaves no defect. */
#define _POSIX_C_SOURCE 200809L /* clock_gettime */
#include <stdint.h>
#include <stdio.h>
#include <stdlib.h>
#include <time.h>
#include "fusion_blossom.h"

enum {
    D = 15,
    COLS = D - 1,
    LEFT = D * COLS,
    RIGHT = LEFT + 1,
    V = RIGHT + 1,
    E = D * (COLS + 1) + (D - 1) * COLS,
    N = 256,
    L = FB_STORE(V, E)
};
enum { BLOCK = FB_BLOCK(V, E, N, L), SCRATCH = FB_SCRATCH(V, E), WEIGHT = 2 };
enum { GROWING = -1, SIDE = -2 }; /* what a defect is matched with, if with no node */

static int64_t block[BLOCK], second[BLOCK], scratch[SCRATCH], edges[3 * E], table[2 * E];
static size_t answer[FB_ANSWER], entries[FB_ENTRIES(N)];
static int flips[V], fixes[V]; /* how often a flipped or a corrected qubit touches the stabilizer */
static int vertex_of[N], partner[N], reached[N]; /* of each node: its vertex, its match, how far it has grown */
static int defects, pairs, sides, cost, calls, rounds;

static int at(int row, int col) { return col < 0 ? LEFT : col >= COLS ? RIGHT : row * COLS + col; }
static int away(int v, int w) { return WEIGHT * (abs(v / COLS - w / COLS) + abs(v % COLS - w % COLS)); }
static int to_side(int v) {
    int c = v % COLS;
    return WEIGHT * (c < COLS - 1 - c ? c + 1 : COLS - c);
}

static void expect(int ok, const char *what) {
    if (ok) return;
    fprintf(stderr, "%s: case %zu, value %zu%s%s\n", what, answer[0], answer[1], answer[0] == FB_REFUSED ? ": " : "",
            answer[0] == FB_REFUSED ? fb_refusal_sentence(answer[1]) : "");
    exit(1);
}

/* The patch, with random flips. */
static void make_patch(uint64_t seed, int *flipped) {
    int e = 0;
    for (int r = 0; r < D; r++)
        for (int c = -1; c < COLS; c++)
            for (int down = 0; down < 2; down++) {
                if (down && (c < 0 || r + 1 == D)) continue;
                int a = at(r, c), b = down ? at(r + 1, c) : at(r, c + 1);
                edges[3 * e] = a, edges[3 * e + 1] = b, edges[3 * e + 2] = WEIGHT, e++;
                seed = seed * 6364136223846793005u + 1442695040888963407u;
                if ((seed >> 33) % 100 < 6) flips[a]++, flips[b]++, ++*flipped;
            }
}

/* A path of corrected qubits: along the row, then along the column. */
static void correct_pair(int v, int w) {
    int r = v / COLS, c = v % COLS;
    for (int step; c != w % COLS; c += step) step = c < w % COLS ? 1 : -1, fixes[at(r, c)]++, fixes[at(r, c + step)]++;
    for (int step; r != w / COLS; r += step) step = r < w / COLS ? 1 : -1, fixes[at(r, c)]++, fixes[at(r + step, c)]++;
}

/* The same to the nearest side. */
static void correct_side(int v) {
    int r = v / COLS, c = v % COLS, step = c < COLS - 1 - c ? -1 : 1;
    for (; c >= 0 && c < COLS; c += step) fixes[at(r, c)]++, fixes[at(r, c + step)]++;
}

/* The node grows no more. */
static void rest(int n, int with) {
    partner[n] = with;
    fb_set_grow_state(block, BLOCK, scratch, SCRATCH, n, FB_STAY, answer, FB_ANSWER), calls++;
    expect(answer[0] == FB_DONE, "set state");
}

static void match_pair(int n, int peer) {
    expect(reached[n] + reached[peer] == away(vertex_of[n], vertex_of[peer]), "a conflict that is no meeting");
    correct_pair(vertex_of[n], vertex_of[peer]);
    cost += away(vertex_of[n], vertex_of[peer]), pairs++;
    rest(n, peer), rest(peer, n);
}

static void match_side(int n) {
    correct_side(vertex_of[n]);
    cost += to_side(vertex_of[n]), sides++;
    rest(n, SIDE);
}

/* Matches a growing node with what it has met. One that meets a node paired in this round is met again in the next. */
static void settle(const size_t *entry, const int *before) {
    expect(entry[0] == FB_CONFLICT || entry[0] == FB_VIRTUAL, "an entry of the group");
    int virtual_met = entry[0] == FB_VIRTUAL, n = (int)entry[virtual_met ? 1 : 3], peer = (int)entry[1];
    if (partner[n] != GROWING) return;
    if (virtual_met)
        expect(reached[n] == to_side(vertex_of[n]), "a side that is not reached"), match_side(n);
    else if (partner[peer] == GROWING)
        match_pair(n, peer);
    else if (before[peer] != GROWING)
        match_side(n);
}

/* All that still grow do so by a length. */
static void grow_all(size_t length) {
    fb_grow_all(block, BLOCK, second, BLOCK, scratch, SCRATCH, (int64_t)length, answer, FB_ANSWER), calls++;
    expect(answer[0] == FB_DONE, "a round");
    for (int n = 0; n < defects; n++)
        if (partner[n] == GROWING) reached[n] += (int)length;
}

/* Either some are matched, or all that still grow do so by the length of the group. Whether any grows. */
static int play_round(void) {
    static int before[N];
    int growing = 0;
    fb_group_max_update_length(block, BLOCK, second, BLOCK, scratch, SCRATCH, entries, FB_ENTRIES(N), answer,
                               FB_ANSWER);
    calls++, rounds++;
    if (answer[0] == FB_FREE) return grow_all(answer[2]), 1;
    expect(answer[0] == FB_GROUP && answer[2] == 0, "the group's length");
    for (int n = 0; n < defects; n++) before[n] = partner[n];
    for (size_t k = 0, count = answer[1]; k < count; k++) settle(entries + FB_ENTRY * k, before);
    for (int n = 0; n < defects; n++) growing |= partner[n] == GROWING;
    return growing;
}

static void insert_defects(void) {
    for (int v = 0; v < LEFT; v++)
        if (flips[v] % 2) {
            fb_insert_defect(block, BLOCK, scratch, SCRATCH, v, FB_GROW, answer, FB_ANSWER), calls++;
            expect(answer[0] == FB_NODE && answer[1] == (size_t)defects, "insert defect");
            vertex_of[defects] = v, partner[defects] = GROWING, defects++;
        }
}

static double seconds(void) {
    struct timespec now;
    clock_gettime(CLOCK_MONOTONIC, &now);
    return (double)now.tv_sec + 1e-9 * (double)now.tv_nsec;
}

int main(int argc, char **argv) {
    int64_t virtuals[2] = {LEFT, RIGHT};
    int flipped = 0, wrong = 0, sum = 0;
    make_patch(argc > 1 ? strtoull(argv[1], NULL, 10) : 1, &flipped);
    double start = seconds();
    fb_open(block, BLOCK, scratch, SCRATCH, edges, 3 * E, virtuals, 2, V, E, N, L, answer, FB_ANSWER), calls++;
    expect(answer[0] == FB_DONE, "open");
    insert_defects();
    while (defects && play_round()) {}
    fb_read_table(block, BLOCK, scratch, SCRATCH, table, 2 * E, answer, FB_ANSWER), calls++;
    expect(answer[0] == FB_DONE, "read table");
    double took = seconds() - start;
    for (int e = 0; e < E; e++) expect(table[2 * e] + table[2 * e + 1] <= WEIGHT, "an edge past its weight");
    for (int v = 0; v < LEFT; v++) wrong += (flips[v] + fixes[v]) % 2;
    for (int n = 0; n < defects; n++) sum += reached[n];
    printf("distance %d: %d vertices, %d edges; %d flipped qubits, %d defects\n", D, V, E, flipped, defects);
    printf("%d pairs, %d matched with a side, in %d rounds; cost %d, at least %d by the dual variables\n", pairs, sides,
           rounds, cost, sum);
    printf("defects that the correction leaves: %d\n", wrong);
    printf("C: %d calls in %.0f microseconds\n", calls, 1e6 * took);
    return wrong != 0 || sum > cost;
}
