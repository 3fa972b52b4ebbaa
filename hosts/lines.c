/* A host for records: P1 of docs/SPECIFICATION.md 13.1 as records, its lines by the exported call. hosts/run.sh builds
   it. */
#include <stdio.h>
#include <string.h>
#include "fusion_blossom.h"

static uint8_t records[1024];
static size_t length;

/* Appends `count` bytes of a number, the lowest first. */
static void put(uint32_t x, int count) {
    for (; count-- > 0; x >>= 8) records[length++] = (uint8_t)x;
}

/* Appends a record: the length of the rest, the kind, its fields. */
static void record(uint32_t kind, int count, const int32_t *fields) {
    put(2 + 4 * (uint32_t)count, 2), put(kind, 2);
    for (int k = 0; k < count; k++) put((uint32_t)fields[k], 4);
}

int main(void) {
    static const struct {
        uint32_t kind;
        int count;
        int32_t fields[4];
    } run[] = {
        {1, 4, {4, 3, 4, 40}},                                          /* V, E, N, L */
        {2, 3, {0, 1, 4}},     {2, 3, {1, 2, 4}},    {2, 3, {2, 3, 4}}, /* left, right, weight */
        {3, 1, {0}},           {3, 1, {3}},                             /* virtual vertices */
        {4, 2, {1, FB_GROW}},  {4, 2, {2, FB_GROW}},                    /* defects */
        {8, 3, {0, FB_UP, 1}},                                          /* the length of node 0, prepared */
        {9, 2, {0, 2}},        {9, 2, {1, 2}},                          /* both grow by 2 */
        {8, 3, {0, FB_UP, 1}}, {10, 0, {0}},                            /* the length again, and the table */
    };
    static const char wanted[] =
        "7 node 0\n8 node 1\n9 free 2 0\n10 done\n11 done\n12 conflict 1 1 0 0\n13 edge 0 0 2\n13 edge 1 2 2\n13 edge "
        "2 2 0\n";
    for (size_t k = 0; k < sizeof run / sizeof *run; k++) record(run[k].kind, run[k].count, run[k].fields);
    uint8_t lines[256];
    size_t written = cardrun_lines(records, length, lines, sizeof lines);
    fwrite(lines, 1, written, stdout);
    if (written != strlen(wanted) || memcmp(lines, wanted, written) != 0) {
        fprintf(stderr, "these are not the lines of graph P\n");
        return 1;
    }
    /* a shorter list gets the lines that fit whole */
    size_t fewer = cardrun_lines(records, length, lines, 20);
    printf("of %zu bytes, %zu fit into 20\n", written, fewer);
    return fewer != 18;
}
