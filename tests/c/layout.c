/* Where the compiled library keeps each field of a builder and of a place record: a building is brought to a state in which the fields
 * differ, and its bytes are read by their offsets. What the operations do is worked out by hand, from docs/FORMAT.md. */
#include "../../include/cutborder.h"
#include "expect.h"
#include <string.h>

static uint16_t triangles[CUTBORDER_ENTRIES];
static struct cutborder_place lent_places[1024];
static struct {
    struct cutborder_builder state;
    uint8_t after[2];
} lent;
static const uint8_t *const places = (const uint8_t *)lent_places, *const state = (const uint8_t *)&lent;

/* The number of 16 bits that lies at an offset, the low byte first, as on x86-64. */
static unsigned at(const uint8_t *bytes, size_t offset) {
    return bytes[offset] + 256u * bytes[offset + 1];
}

static void operation(uint32_t code, uint32_t p, uint32_t j) {
    uint16_t built[4];
    EXPECT(cutborder_operation(&lent.state, code, p, j, triangles, CUTBORDER_ENTRIES, lent_places, 1024, built) == 0);
}

/* The counts that were stated come first, and nothing is written past a builder's 426 bytes. */
static void begins(void) {
    memset(&lent, 0xaa, sizeof lent);
    EXPECT(cutborder_begin(4095, 8191, 1023, 99, triangles, CUTBORDER_ENTRIES, lent_places, 1024, &lent.state) == 0);
    EXPECT(at(state, 0) == 4095 && at(state, 2) == 8191 && at(state, 4) == 1023 && at(state, 6) == 99);
    for (size_t i = 8; i < 426; i++)
        EXPECT(state[i] == 0);
    EXPECT(state[426] == 0xaa && state[427] == 0xaa);
}

/* Five triangles alone, each with a rim; then 15 16 17 grows to a loop of ten places, which is split, joined again by a union and split
 * twice; the last loop is closed, so that two are left, and the current edge of the current one, 25 to 18, is marked as border. */
static void builds(void) {
    for (int i = 0; i < 20; i++)
        operation(i % 4 == 0 ? CUTBORDER_START : CUTBORDER_BORDER, 0, 0);
    operation(CUTBORDER_START, 0, 0);
    for (int i = 0; i < 7; i++)
        operation(CUTBORDER_NEW, 0, 0);
    operation(CUTBORDER_FORWARD, 0, 0);
    operation(CUTBORDER_SPLIT, 0, 2);
    operation(CUTBORDER_UNION, 1, 3);
    operation(CUTBORDER_SPLIT, 0, 6);
    operation(CUTBORDER_NEW, 0, 0);
    operation(CUTBORDER_SPLIT, 0, 2);
    operation(CUTBORDER_CLOSE, 0, 0);
    operation(CUTBORDER_BORDER, 0, 0);
}

/* A loop of so many places from a place on: the vertices along it, forwards and backwards, and which edges are open. */
static void loop(unsigned place, size_t size, const unsigned *vertices, const uint8_t *open) {
    unsigned back = place;
    for (size_t i = 0; i < size; i++) {
        EXPECT(at(places, 8 * place) == vertices[i] && places[8 * place + 6] == open[i]);
        EXPECT(at(places, 8 * back) == vertices[(size - i) % size]);
        back = at(places, 8 * back + 2) % 1024;
        place = at(places, 8 * place + 4) % 1024;
    }
}

int main(void) {
    static const unsigned current[4] = {18, 19, 20, 25}, waiting[7] = {23, 17, 15, 18, 20, 21, 22};
    static const uint8_t one_marked[4] = {1, 1, 1, 0}, open[7] = {1, 1, 1, 1, 1, 1, 1};
    begins();
    builds();
    EXPECT(at(state, 0) == 4095 && at(state, 2) == 8191 && at(state, 4) == 1023 && at(state, 6) == 99);
    EXPECT(at(state, 8) == 26 && at(state, 10) == 20);   /* used, built */
    EXPECT(at(state, 12) == 14 && at(state, 14) == 3);   /* peak_places, peak_loops */
    EXPECT(at(state, 16) == 43 && at(state, 18) == 6);   /* edges, starts */
    EXPECT(at(state, 20) == 1 && at(state, 22) == 5);    /* unions, rims */
    EXPECT(at(state, 24) == 2);                          /* live */
    EXPECT(at(state, 226) == 7 && at(state, 228) == 4);  /* sizes */
    loop(at(state, 26) % 1024, 7, waiting, open);        /* current */
    loop(at(state, 28) % 1024, 4, current, one_marked);
    for (size_t i = 2; i < 100; i++)
        EXPECT(at(state, 26 + 2 * i) == 0 && at(state, 226 + 2 * i) == 0);
    EXPECT(state[426] == 0xaa && state[427] == 0xaa);
    return wrong != 0;
}
