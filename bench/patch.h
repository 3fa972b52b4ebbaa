// Blocks to time calls on, made by calls of a shared object of the library: patches of the rotated surface code in one
// or more rounds, with random flips, whose defects have grown until each has met something.
#define _GNU_SOURCE
#include <dlfcn.h>
#include <stdint.h>
#include <stdio.h>
#include <stdlib.h>
#include <string.h>
#include <time.h>
#include "../include/fusion_blossom.h"

enum { V = FB_MOST_VERTICES, E = FB_MOST_EDGES, N = FB_MOST_NODES, L = FB_MOST_STORE };
enum { GROUPS = 60, FLIPS = 100 }; // FLIPS: one edge of so many flips

// The calls of one shared object of the library.
#define CALLS(X) \
    X(open) X(insert_defect) X(insert_blossom) X(remove_blossom) X(load_edge_modifier) X(set_grow_state) X(prepare) \
    X(max_update_length) X(grow) X(advance) X(clear) X(representative_vertex) X(read_node) X(gap) X(read_table) \
    X(contacts) X(renew_active_list) X(prepare_all) X(group_max_update_length) X(grow_all)

struct Library {
#define X(name) __typeof__(fb_##name) *name;
    CALLS(X)
#undef X
};

static int64_t block[FB_BLOCK(V, E, N, L)], second[FB_BLOCK(V, E, N, L)], scratch[FB_SCRATCH(V, E)];
static int64_t edges[3 * E], virtuals[V];
static size_t answer[FB_ANSWER], entries[FB_ENTRIES(N)];
static size_t words, scratch_words, vertices, edge_count, virtual_count, node_limit;
static uint64_t seed;

static void stop(const char *what) {
    fprintf(stderr, "%s: case %zu, value %zu\n", what, answer[0], answer[1]);
    exit(1);
}

static void *named(void *object, const char *name) {
    void *found = dlsym(object, name);
    if (!found) fprintf(stderr, "%s\n", dlerror()), exit(1);
    return found;
}

static struct Library load(const char *path) {
    void *object = dlopen(path, RTLD_NOW | RTLD_LOCAL);
    if (!object) fprintf(stderr, "%s\n", dlerror()), exit(1);
    return (struct Library){
#define X(name) named(object, "fb_" #name),
        CALLS(X)
#undef X
    };
}

static double seconds(void) {
    struct timespec now;
    clock_gettime(CLOCK_MONOTONIC, &now);
    return now.tv_sec + now.tv_nsec * 1e-9;
}

static unsigned drawn(unsigned n) {
    seed = seed * 6364136223846793005u + 1442695040888963407u;
    return (seed >> 33) % n;
}

// ---- patches

static void add_edge(int a, int b) {
    int64_t *e = edges + 3 * edge_count++;
    e[0] = a < b ? a : b, e[1] = a < b ? b : a, e[2] = 2 * (1 + drawn(6));
}

// One round of distance d: checks of one type are vertices, data qubits are edges, the two open sides are virtual.
// Gives back the number of vertices; the virtual ones are the last two.
static int round_of(int d, int ends[][2]) {
    static int number[64][64];
    int checks = 0;
    memset(number, -1, sizeof number);
    for (int x = 0; x < d; x++)
        for (int y = 0; y < d; y++)
            for (int corner = 0, k = 0; corner < 4; corner++) {
                int i = x + corner / 2, j = y + corner % 2;
                if ((i + j) % 2) continue;
                if (j > 0 && j < d && number[i][j] < 0) number[i][j] = checks++;
                ends[x * d + y][k++] = j == 0 ? -1 : j == d ? -2 : number[i][j];
            }
    for (int q = 0; q < d * d; q++)
        for (int k = 0; k < 2; k++)
            if (ends[q][k] < 0) ends[q][k] = checks - 1 - ends[q][k];
    return checks + 2;
}

// The graph of a patch, each check joined to itself in the next round.
static void make_patch(int d, int rounds) {
    static int ends[1024][2];
    int n = round_of(d, ends);
    vertices = n * rounds, edge_count = virtual_count = 0;
    for (int r = 0; r < rounds; r++) {
        for (int q = 0; q < d * d; q++) add_edge(r * n + ends[q][0], r * n + ends[q][1]);
        virtuals[virtual_count++] = r * n + n - 2, virtuals[virtual_count++] = r * n + n - 1;
        for (int x = 0; r + 1 < rounds && x < n - 2; x++) add_edge(r * n + x, (r + 1) * n + x);
    }
}

// The vertices with an odd number of flips are defects, in Grow. Gives back how many.
static int insert_defects(const struct Library *l) {
    static int odd[V];
    int defects = 0;
    memset(odd, 0, sizeof odd);
    for (size_t e = 0; e < edge_count; e++)
        if (drawn(FLIPS) == 0) odd[edges[3 * e]] ^= 1, odd[edges[3 * e + 1]] ^= 1;
    for (size_t k = 0; k < virtual_count; k++) odd[virtuals[k]] = 0;
    for (size_t v = 0; v < vertices; v++) {
        if (!odd[v]) continue;
        l->insert_defect(block, words, scratch, scratch_words, v, FB_GROW, answer, FB_ANSWER);
        if (answer[0] != FB_NODE) stop("insert a defect");
        defects++;
    }
    return defects;
}

// The nodes of the first `count` entries rest.
static void rest(const struct Library *l, size_t count) {
    for (size_t k = 0; k < count; k++) {
        const size_t *entry = entries + FB_ENTRY * k;
        l->set_grow_state(block, words, scratch, scratch_words, entry[1], FB_STAY, answer, FB_ANSWER);
        if (entry[0] == FB_CONFLICT)
            l->set_grow_state(block, words, scratch, scratch_words, entry[3], FB_STAY, answer, FB_ANSWER);
    }
}

// All defects grow in rounds; those that meet something rest.
static void grow_until_met(const struct Library *l) {
    for (int k = 0; k < GROUPS; k++) {
        l->group_max_update_length(block, words, second, words, scratch, scratch_words, entries, FB_ENTRIES(node_limit),
                                   answer, FB_ANSWER);
        if (answer[0] == FB_GROUP) {
            rest(l, answer[1]);
        } else if (answer[0] == FB_FREE) {
            l->grow_all(block, words, second, words, scratch, scratch_words, answer[2], answer, FB_ANSWER);
            if (answer[0] != FB_DONE) stop("grow all");
        } else {
            return;
        }
    }
}

// The block of a patch, opened, with its defects grown, and what it is called. Gives back the number of defects.
static int open_patch(char *name, const struct Library *l, int d, int rounds, size_t n, size_t store) {
    seed = 7, node_limit = n;
    make_patch(d, rounds);
    words = FB_BLOCK(vertices, edge_count, n, store), scratch_words = FB_SCRATCH(vertices, edge_count);
    l->open(block, words, scratch, scratch_words, edges, 3 * edge_count, virtuals, virtual_count, vertices, edge_count,
            n, store, answer, FB_ANSWER);
    if (answer[0] != FB_DONE) stop("open");
    int defects = insert_defects(l);
    grow_until_met(l);
    sprintf(name, "distance %d, %d round%s: V %zu, E %zu, %d defect%s", d, rounds, rounds > 1 ? "s" : "", vertices,
            edge_count, defects, defects == 1 ? "" : "s");
    return defects;
}
