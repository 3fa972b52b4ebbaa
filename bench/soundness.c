// soundness BEFORE AFTER: times the soundness test of lent memory by two shared objects of the library, in turn.
//
// The test alone is a call that is refused 3 right behind it: the representative vertex of a node that is not there.
// Blocks are patches (patch.h), made by calls of the first object, and one of the largest sizes with full lists, written
// by hand. Each number is the best of all turns. A sound block must pass both; one with its last weight spoiled, which
// stands at its very end, must be refused 2 by both.
#include "patch.h"

enum { TURNS = 200 };

// 0, or the refusal of block and scratch.
static size_t refused(const struct Library *l) {
    l->representative_vertex(block, words, scratch, scratch_words, N, answer, FB_ANSWER);
    if (answer[0] != FB_REFUSED) stop("a node that is not there");
    return answer[1] == 3 ? 0 : answer[1];
}

// ---- the largest block

// Places, edges and what is stored of vertices and sides: the last node holds all of it.
static void fill_graph(int64_t *flags, int64_t *end) {
    int64_t *holder_of = flags + V, *grandson_of = holder_of + V, *first = grandson_of + V;
    int64_t *growth = end + 2 * E, *holder = growth + 2 * E, *grandson = holder + 2 * E, *at = grandson + 2 * E;
    int64_t *weight = at + 2 * E, *original = block + words - E;
    for (int e = 0; e < E; e++) end[2 * e] = e % V, end[2 * e + 1] = (e + 1 + e / V * 7) % V;
    for (int e = 0; e < E; e++) weight[e] = 1000, original[e] = 2000;
    for (int v = 0, p = 0; v < V; v++) {
        first[v] = p, flags[v] = 2 * (v < N - 1), holder_of[v] = N, grandson_of[v] = 1;
        for (int s = 0; s < 2 * E; s++)
            if (end[s] == v) at[p++] = s;
    }
    for (int s = 0; s < 2 * E; s++) growth[s] = 500, holder[s] = N, grandson[s] = 1 + s % (N - 1);
}

// Node N - 1 is a blossom that lists every side and 56 vertices; the others are defects that lie in it, each with a
// list of 56 sides. All stand in the active list, and a change of weights stands.
static void fill_largest(void) {
    words = FB_BLOCK(V, E, N, L), scratch_words = FB_SCRATCH(V, E);
    int64_t *flags = block + 16, *end = flags + 4 * V, *class = end + 11 * E, *state = class + N, *parent = state + N;
    int64_t *dual = parent + N, *start = dual + N, *sides = start + N, *stack = sides + N, *store = stack + N;
    int64_t *active = store + L;
    const int64_t header[] = {V, E, N, L, N, N, 1};
    memcpy(block, header, sizeof header);
    fill_graph(flags, end);
    for (int n = 0, p = 0; n < N; n++) {
        int last = n == N - 1;
        active[n] = N - 1 - n, class[n] = last ? V : n, state[n] = last, parent[n] = last ? 0 : N, dual[n] = 250;
        start[n] = p, sides[n] = last ? 2 * E : 56, stack[n] = last ? L - p - 2 * E : 0;
        for (int k = 0; k < sides[n]; k++) store[p++] = last ? k : (7 * n + k) % (2 * E);
        for (int k = 0; k < stack[n]; k++) store[p++] = 1024 * 5 + k;
    }
}

// ---- timing

static void row(const char *name, const struct Library *libraries) {
    double best[2] = {1e9, 1e9}, once = seconds();
    for (int k = 0; k < 2; k++)
        if (refused(libraries + k)) stop("a sound block");
    int tests = 1 + 0.002 / (seconds() - once); // about a millisecond
    for (int turn = 0; turn < 2 * TURNS; turn++) {
        double start = seconds();
        for (int k = 0; k < tests; k++)
            if (refused(libraries + turn % 2)) stop("a sound block");
        double took = (seconds() - start) / tests;
        if (took < best[turn % 2]) best[turn % 2] = took;
    }
    block[words - 1] = -1;
    for (int k = 0; k < 2; k++)
        if (refused(libraries + k) != 2) stop("a spoiled block");
    printf("| %s | %zu | %.2f | %.2f | %.2f |\n", name, words, best[0] * 1e6, best[1] * 1e6, best[1] / best[0]);
    fflush(stdout);
}

int main(int argc, char **argv) {
    static const int patches[][4] = {{7, 1, 32, 2000}, {11, 1, 64, 4000},    {15, 1, 64, 8000},
                                     {7, 7, 64, 8000}, {11, 11, 128, 40000}, {15, 8, 128, 50000}};
    if (argc != 3) return fprintf(stderr, "usage: soundness BEFORE AFTER\n"), 2;
    struct Library libraries[] = {load(argv[1]), load(argv[2])};
    char name[200];
    puts("| block | words | before, us | after, us | ratio |\n|---|---|---|---|---|");
    for (size_t k = 0; k < sizeof patches / sizeof *patches; k++) {
        open_patch(name, libraries, patches[k][0], patches[k][1], patches[k][2], patches[k][3]);
        row(name, libraries);
    }
    fill_largest();
    row("the largest sizes, lists full: V 1024, E 4096", libraries);
    return 0;
}
