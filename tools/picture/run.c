/* Packs the model on standard input (V, then the vertex numbers), builds it again by the operations that the pack holds, and prints
 * what draw.py draws:
 *
 *    vertices V                      then `numbering`, each old vertex's new number, and `triangle a b c` for each of the list
 *    step N NAME INDICES             an operation; then, of the builder as it leaves it:
 *    built a b c                     the triangle, or `built none`
 *    waiting P: 13- 8- 9=            waiting loop P, its places from its current edge on: the vertex, - an open edge, = a marked one
 *    current: 8- 5- 6= 2-            the current loop
 *    complete E R U X                edges, rims, unions and the Euler number, as the finish tells them
 *
 * A call that is refused, or a built model that is not the one cutborder_unpack gives, ends the run with a line on standard error. */
#include "../../include/cutborder.h"
#include <stdio.h>
#include <stdlib.h>
#include <string.h>

#define RECORDS 1024
#define OPERATIONS 14 /* where the operations stand in a pack, after the counts, a tag and a length */

static uint16_t list[24576], numbering[4096], order[8192], triangles[24576];
static uint8_t pack[65536];
static struct cutborder_place places[RECORDS];
static uint32_t vertices, entries, taken;

static void fail(const char *what, long number) {
    fprintf(stderr, "run: %s %ld\n", what, number);
    exit(1);
}

static void accept(const char *refused, uint32_t answer) {
    if (answer != 0)
        fail(refused, answer);
}

static uint32_t two_bytes(const uint8_t *bytes) {
    return bytes[0] << 8 | bytes[1];
}

static void read_list(void) {
    if (scanf("%u", &vertices) != 1)
        fail("no number of vertices: numbers read", 0);
    while (entries < 24576 && scanf("%hu", &list[entries]) == 1)
        entries++;
}

static void print_list(void) {
    printf("vertices %u\nnumbering", vertices);
    for (uint32_t v = 0; v < vertices; v++)
        printf(" %u", numbering[v]);
    for (uint32_t i = 0; i < entries; i++)
        printf(i % 3 == 0 ? "\ntriangle %u" : " %u", list[i]);
    printf("\n");
}

/* The next bits of the operations, the high one first. */
static uint32_t take(int bits) {
    uint32_t number = 0;
    for (; bits > 0; bits--, taken++) {
        if (taken / 8 >= two_bytes(pack + OPERATIONS - 2))
            fail("the operations end early, at bit", taken);
        number = number << 1 | (pack[OPERATIONS + taken / 8] >> (7 - taken % 8) & 1);
    }
    return number;
}

static void print_loop(const struct cutborder_builder *state, int loop) {
    uint16_t at = state->current[loop];
    for (int i = 0; i < state->sizes[loop]; i++) {
        printf(" %u%c", places[at].vertex, places[at].open ? '-' : '=');
        at = places[at].after;
    }
    printf("\n");
    if (at != state->current[loop])
        fail("a loop's places do not lead back to its current edge: loop", loop);
}

static void print_loops(const struct cutborder_builder *state) {
    for (int loop = 0; loop < state->live; loop++) {
        if (loop + 1 < state->live)
            printf("waiting %d:", state->live - 1 - loop);
        else
            printf("current:");
        print_loop(state, loop);
    }
}

/* One operation of the pack, printed, and done by the builder. */
static void operate(struct cutborder_builder *state, int step) {
    static const char *const names[] = {"new", "forward", "backward", "border", "split", "close", "union", "start"};
    uint32_t code = take(3), p = 0, j = 0;
    uint16_t built[4];
    printf("step %d %s", step, names[code]);
    if (code == CUTBORDER_UNION)
        printf(" %u", p = take(7));
    if (code == CUTBORDER_UNION || code == CUTBORDER_SPLIT)
        printf(" %u", j = take(10));
    accept("operation: refused", cutborder_operation(state, code, p, j, triangles, entries, places, RECORDS, built));
    if (built[0])
        printf("\nbuilt %u %u %u\n", built[1], built[2], built[3]);
    else
        printf("\nbuilt none\n");
    print_loops(state);
}

static void build(uint16_t totals[3], int32_t *euler) {
    struct cutborder_builder state;
    int step = 0;
    accept("begin: refused", cutborder_begin(two_bytes(pack + 3), two_bytes(pack + 5), two_bytes(pack + 7), two_bytes(pack + 9), triangles,
                                             entries, places, RECORDS, &state));
    do
        operate(&state, ++step);
    while (state.live > 0 || state.built < state.triangles);
    accept("finish: refused", cutborder_finish(&state, triangles, entries, places, RECORDS, totals, euler));
    printf("complete %u %u %u %d\n", totals[0], totals[1], totals[2], *euler);
}

int main(void) {
    static uint16_t unpacked[24576];
    uint16_t model[5], totals[3];
    uint32_t size;
    int32_t euler, built_euler;
    read_list();
    accept("pack: refused",
           cutborder_pack(vertices, list, entries, numbering, 4096, pack, sizeof pack, order, 8192, places, RECORDS, &size));
    accept("unpack: refused", cutborder_unpack(pack, size, unpacked, entries, places, RECORDS, model, &euler));
    print_list();
    build(totals, &built_euler);
    for (uint32_t i = 0; i < entries; i++)
        if (triangles[i] != unpacked[i])
            fail("what was built is not what unpack gives, first at entry", i);
    if (memcmp(totals, model + 2, sizeof totals) != 0 || built_euler != euler)
        fail("the totals are not those that unpack gives; Euler number", built_euler);
    return 0;
}
