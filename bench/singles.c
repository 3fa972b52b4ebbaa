// singles BEFORE AFTER: times each call of the library by itself, by two shared objects of the library, in turn.
//
// A call is made for every defect of a patch (patch.h), each time on the same block, which is put back before it; only
// the call is timed. Each number is the best of all turns, as the mean over the defects. Both objects must answer and
// leave the same words.
#include "patch.h"

enum { TURNS = 60 };

static int64_t grown[FB_BLOCK(V, E, N, L)], fresh[FB_BLOCK(V, E, N, L)], joined[FB_BLOCK(V, E, N, L)];
static int64_t left[2][FB_BLOCK(V, E, N, L)], list[3 * E];
static int defects;

#define LENT block, words, scratch, scratch_words
#define TOLD answer, FB_ANSWER

// One call on defect k.
static void open_block(const struct Library *l, int k) {
    (void)k;
    l->open(LENT, edges, 3 * edge_count, virtuals, virtual_count, vertices, edge_count, node_limit,
            words - FB_BLOCK(vertices, edge_count, node_limit, 0), TOLD);
}
static void insert_defect(const struct Library *l, int k) { l->insert_defect(LENT, k, FB_GROW, TOLD); }
static void insert_blossom(const struct Library *l, int k) {
    const int64_t circle[] = {k, (k + 1) % defects, (k + 2) % defects};
    l->insert_blossom(LENT, circle, 3, FB_GROW, TOLD);
}
static void remove_blossom(const struct Library *l, int k) {
    (void)k;
    l->remove_blossom(LENT, defects, TOLD);
}
static void load_edge_modifier(const struct Library *l, int k) {
    const int64_t pairs[] = {k, 2, k + 1, 4};
    l->load_edge_modifier(LENT, pairs, 4, TOLD);
}
static void set_grow_state(const struct Library *l, int k) { l->set_grow_state(LENT, k, FB_SHRINK, TOLD); }
static void prepare_up(const struct Library *l, int k) { l->prepare(LENT, k, 1, TOLD); }
static void prepare_down(const struct Library *l, int k) { l->prepare(LENT, k, 0, TOLD); }
static void length_first(const struct Library *l, int k) { l->max_update_length(LENT, k, 1, true, TOLD); }
static void length_as_is(const struct Library *l, int k) { l->max_update_length(LENT, k, 1, false, TOLD); }
static void grow(const struct Library *l, int k) { l->grow(LENT, k, 1, TOLD); }
static void shrink(const struct Library *l, int k) { l->grow(LENT, k, -1, TOLD); }
static void advance(const struct Library *l, int k) { l->advance(LENT, k, TOLD); }
static void clear(const struct Library *l, int k) {
    (void)k;
    l->clear(LENT, TOLD);
}
static void vertex(const struct Library *l, int k) { l->representative_vertex(LENT, k, TOLD); }
static void read_node(const struct Library *l, int k) { l->read_node(LENT, k, TOLD); }
static void gap(const struct Library *l, int k) { l->gap(LENT, k, TOLD); }
static void read_table(const struct Library *l, int k) {
    (void)k;
    l->read_table(LENT, list, 2 * edge_count, TOLD);
}
static void contacts(const struct Library *l, int k) {
    (void)k;
    l->contacts(LENT, list, 3 * edge_count, TOLD);
}
static void renew(const struct Library *l, int k) {
    (void)k;
    l->renew_active_list(block, words, TOLD);
}
static void prepare_all(const struct Library *l, int k) {
    (void)k;
    l->prepare_all(block, words, second, words, scratch, scratch_words, TOLD);
}
static void group(const struct Library *l, int k) {
    (void)k;
    l->group_max_update_length(block, words, second, words, scratch, scratch_words, entries, FB_ENTRIES(node_limit),
                               TOLD);
}
static void grow_all(const struct Library *l, int k) {
    (void)k;
    l->grow_all(block, words, second, words, scratch, scratch_words, 1, TOLD);
}

static const struct {
    const char *name;
    void (*call)(const struct Library *, int);
    const int64_t *from; // the block that it is made on
} calls[] = {
    {"open", open_block, fresh},
    {"insert a defect", insert_defect, fresh},
    {"insert a blossom", insert_blossom, grown},
    {"open a blossom", remove_blossom, joined},
    {"change weights", load_edge_modifier, fresh},
    {"set the grow state", set_grow_state, grown},
    {"prepare to grow", prepare_up, grown},
    {"prepare to shrink", prepare_down, grown},
    {"length, prepared", length_first, grown},
    {"length, as it is", length_as_is, grown},
    {"grow by 1", grow, grown},
    {"shrink by 1", shrink, grown},
    {"advance", advance, grown},
    {"clear", clear, grown},
    {"representative vertex", vertex, grown},
    {"read a node", read_node, grown},
    {"gap", gap, grown},
    {"read the table", read_table, grown},
    {"contacts", contacts, grown},
    {"renew the active list", renew, grown},
    {"prepare all", prepare_all, grown},
    {"length of all", group, grown},
    {"grow all by 1", grow_all, grown},
};

// Seconds of one call for each defect; what the last one leaves goes to left[which].
static double turn(size_t c, const struct Library *l, int which, size_t *told) {
    double sum = 0;
    for (int k = 0; k < defects; k++) {
        memcpy(block, calls[c].from, words * sizeof *block);
        double start = seconds();
        calls[c].call(l, k);
        sum += seconds() - start;
        *told = *told * 31 + answer[0] * 7 + answer[1];
    }
    memcpy(left[which], block, words * sizeof *block);
    return sum / defects;
}

static void row(size_t c, const struct Library *libraries) {
    double best[2] = {1e9, 1e9};
    for (int k = 0; k < 2 * TURNS; k++) {
        static size_t told[2];
        if (k < 2) told[k] = 0;
        double took = turn(c, libraries + k % 2, k % 2, told + k % 2);
        if (took < best[k % 2]) best[k % 2] = took;
        if (k == 1 && (told[0] != told[1] || memcmp(left[0], left[1], words * sizeof *block))) stop(calls[c].name);
    }
    printf("| %s | %.2f | %.2f | %.2f |\n", calls[c].name, best[0] * 1e6, best[1] * 1e6, best[1] / best[0]);
    fflush(stdout);
}

// The three blocks that calls are made on.
static void make_blocks(char *name, const struct Library *l, const int *patch) {
    defects = open_patch(name, l, patch[0], patch[1], patch[2], patch[3]);
    if (defects < 3) fprintf(stderr, "too few defects\n"), exit(1);
    for (int k = 0; k < defects; k++) l->set_grow_state(LENT, k, FB_GROW, TOLD);
    memcpy(grown, block, words * sizeof *block);
    insert_blossom(l, 0);
    if (answer[0] != FB_NODE) stop("insert a blossom");
    memcpy(joined, block, words * sizeof *block);
    memcpy(block, grown, words * sizeof *block);
    clear(l, 0);
    memcpy(fresh, block, words * sizeof *block);
}

int main(int argc, char **argv) {
    static const int patches[][4] = {{11, 1, 64, 8000}, {7, 7, 64, 16000}, {15, 8, 128, 50000}};
    if (argc != 3) return fprintf(stderr, "usage: singles BEFORE AFTER\n"), 2;
    struct Library libraries[] = {load(argv[1]), load(argv[2])};
    char name[200];
    for (size_t p = 0; p < sizeof patches / sizeof *patches; p++) {
        make_blocks(name, libraries, patches[p]);
        printf("%s%s, %zu words\n\n| call | before, us | after, us | ratio |\n|---|---|---|---|\n", p ? "\n" : "", name,
               words);
        for (size_t c = 0; c < sizeof calls / sizeof *calls; c++) row(c, libraries);
    }
    return 0;
}
