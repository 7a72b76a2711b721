/* The calls in buffers on the heap that have exactly the length asked for and hold nothing yet, so that valgrind sees every access beyond
 * them, and all that is decided by what was never written. The model is the ring of examples/ring.c. */
#include "../../include/cutborder.h"
#include "../../include/cutborder_search.h"
#include "../../include/furnace.h"
#include "expect.h"
#include <stdlib.h>
#include <string.h>

enum { ALONG = 8, AROUND = 6, V = ALONG * AROUND, T = 2 * V };

static void *lent[64];
static int count;

/* Memory of so many bytes, until all is given back. */
static void *lend(size_t bytes) {
    if (count == 64 || !(lent[count] = malloc(bytes)))
        exit(2);
    return lent[count++];
}

/* Place records are zero at first: their `open` is to be 0 or 1. */
static struct cutborder_place *lend_places(void) {
    return memset(lend(CUTBORDER_PLACES * sizeof(struct cutborder_place)), 0, CUTBORDER_PLACES * sizeof(struct cutborder_place));
}

static void give_back(void) {
    while (count > 0)
        free(lent[--count]);
}

static uint16_t *lend_ring(void) {
    uint16_t *list = lend(6 * T);
    for (int n = 0; n < V; n++) {
        int row = n - n % AROUND, next_row = (row + AROUND) % V, here = n % AROUND, right = (here + 1) % AROUND;
        const int two[6] = {row + here, next_row + here, next_row + right, row + here, next_row + right, row + right};
        for (int c = 0; c < 6; c++)
            list[6 * n + c] = (uint16_t)two[c];
    }
    return list;
}

/* Packs the ring into so many bytes. */
static uint8_t *lend_pack(size_t bytes, uint32_t expected, uint32_t *size) {
    int16_t *positions = memset(lend(6 * V), 1, 6 * V);
    uint8_t *note = memset(lend(1), 'x', 1), *pack = lend(bytes);
    EXPECT(cutborder_pack_positions_note(V, lend_ring(), 3 * T, positions, 3 * V, note, 1, lend(2 * V), V, pack, bytes, lend(2 * T), T,
                                         lend_places(), CUTBORDER_PLACES, size) == expected);
    return pack;
}

/* The pack by every call that reads one; with a byte lost as well. */
static void reads(const uint8_t *pack, uint32_t size) {
    for (uint32_t lost = 0; lost < 2; lost++) {
        uint8_t *own = memcpy(lend(size - lost), pack, size - lost);
        uint32_t expected = lost ? 12 : 0;
        EXPECT(cutborder_unpack(own, size - lost, lend(6 * T), 3 * T, lend_places(), CUTBORDER_PLACES, lend(10), lend(4)) == expected);
        EXPECT(cutborder_volume(own, size - lost, lend(6 * T), 3 * T, lend_places(), CUTBORDER_PLACES, lend(10), lend(4), lend(8)) ==
               expected);
        EXPECT(cutborder_bench(own, size - lost, lend(6 * T), 3 * T, lend_places(), CUTBORDER_PLACES, lend(10), lend(4),
                               lend(sizeof(size_t)), lend(sizeof(size_t))) == expected);
        EXPECT(furnace_read(own, size - lost, lend(FURNACE_MEMORY), lend(8)) == expected);
    }
    give_back();
}

/* A triangle with its rim, from a builder that holds nothing yet. */
static void builds(void) {
    struct cutborder_builder *state = lend(sizeof *state);
    struct cutborder_place *places = lend_places();
    uint16_t *triangles = lend(6), *built = lend(8);
    EXPECT(cutborder_begin(3, 1, 3, 1, triangles, 2, places, CUTBORDER_PLACES, state) == 14);
    EXPECT(cutborder_begin(3, 1, 3, 1, triangles, 3, places, CUTBORDER_PLACES, state) == 0);
    EXPECT(cutborder_operation(state, CUTBORDER_START, 0, 0, triangles, 3, places, CUTBORDER_PLACES, built) == 0);
    for (int i = 0; i < 3; i++) {
        EXPECT(cutborder_finish(state, triangles, 3, places, CUTBORDER_PLACES, lend(6), lend(4)) == 15);
        EXPECT(cutborder_operation(state, CUTBORDER_BORDER, 0, 0, triangles, 3, places, CUTBORDER_PLACES, built) == 0);
    }
    EXPECT(cutborder_operation(state, CUTBORDER_START, 0, 0, triangles, 3, places, CUTBORDER_PLACES, built) == 17);
    EXPECT(cutborder_finish(state, triangles, 3, places, CUTBORDER_PLACES, lend(6), lend(4)) == 0);
    give_back();
}

static void searches(void) {
    uint16_t *list = lend_ring(), *links = lend(2 * CUTBORDER_LINKS), *found = lend(6);
    EXPECT(cutborder_check(V, list, 3 * T) == 0);
    EXPECT(cutborder_link(V, list, 3 * T, links) == 0);
    EXPECT(cutborder_search(list, 3 * T, links, list[0], list[1], found) == 1 && found[0] == 0 && found[1] == 2 && found[2] == list[2]);
    EXPECT(cutborder_search(list, 3 * T, links, list[0], list[0], found) == 0);
    give_back();
}

int main(void) {
    uint32_t size = 0, same = 0;
    lend_pack(CUTBORDER_PACK_BYTES, 0, &size);
    lend_pack(size - 1, 11, &same);
    EXPECT(same == 0);
    reads(lend_pack(size, 0, &same), size);
    EXPECT(same == size);
    builds();
    searches();
    return wrong != 0;
}
