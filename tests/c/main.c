/* The calls from C: M2 of the paper checked, packed, unpacked and built, a cube packed with positions and measured, M2 packed with a note
 * that is read back, a list searched, a cube read by the furnace's own reader, and calls that are refused. */
#include "../../include/cutborder.h"
#include "../../include/cutborder_search.h"
#include "../../include/furnace.h"
#include "expect.h"
#include <string.h>

static const uint16_t list[12] = {0, 1, 2, 1, 0, 3, 2, 1, 3, 0, 2, 3};
static const uint8_t expected[] = {1, 0, 8, 0, 4, 0, 4, 0, 4, 0, 1, 2, 0, 2, 0xe0, 0xd0};
static const uint16_t as_built[12] = {0, 1, 2, 1, 0, 3, 1, 3, 2, 2, 3, 0};
static struct cutborder_place places[1024], same[1024];
static uint16_t numbering[4], order[6];
static uint8_t pack[64];
static uint32_t size;

/* The same model with its triangles in another order: 0, 3, 2, 1 are built in turn. */
static const uint16_t other_list[12] = {2, 1, 3, 0, 2, 3, 1, 0, 3, 0, 1, 2};

/* Packing into buffers of these lengths; `order` holds nines before. */
static uint32_t packed(size_t v, const uint16_t *of, size_t pack_bytes, size_t order_entries, size_t records) {
    for (int i = 0; i < 6; i++)
        order[i] = 9;
    size = 77;
    return cutborder_pack(v, of, 12, numbering, 4, pack, pack_bytes, order, order_entries, places, records, &size);
}

static bool ordered(uint16_t a, uint16_t b, uint16_t c, uint16_t d) {
    return order[0] == a && order[1] == b && order[2] == c && order[3] == d && order[4] == 9 && order[5] == 9;
}

static void packs(void) {
    uint16_t triangles[12], model[5];
    int32_t euler = -77;
    EXPECT(cutborder_check(4, list, 12) == 0);
    EXPECT(cutborder_check((size_t)-1, list, 12) == 2);
    EXPECT(packed(5, list, sizeof pack, 3, 1024) == 6 && size == 77);
    EXPECT(packed(4, list, sizeof pack, 3, 1023) == 8 && size == 77 && ordered(9, 9, 9, 9));
    EXPECT(packed(4, list, 15, 3, 1024) == 22 && size == 77 && ordered(9, 9, 9, 9));
    EXPECT(packed(4, list, 15, 5, 1024) == 11 && size == 77 && ordered(0, 0, 0, 0));
    EXPECT(packed(4, other_list, sizeof pack, 4, 1024) == 0 && ordered(0, 3, 2, 1));
    EXPECT(size == sizeof expected && memcmp(pack, expected, sizeof expected) == 0);
    EXPECT(packed(4, list, sizeof pack, 6, 1024) == 0 && ordered(0, 1, 2, 3));
    EXPECT(size == sizeof expected && memcmp(pack, expected, sizeof expected) == 0);
    EXPECT(cutborder_unpack(pack, size - 1, triangles, 12, places, 1024, model, &euler) == 12 && euler == -77);
    EXPECT(cutborder_unpack(pack, size, triangles, 12, places, 1024, model, &euler) == 0);
    EXPECT(model[0] == 4 && model[1] == 4 && model[2] == 6 && model[3] == 0 && model[4] == 0 && euler == 2);
    EXPECT(memcmp(triangles, as_built, sizeof as_built) == 0);
}

static void builds(void) {
    struct cutborder_builder state, before;
    uint16_t triangles[12], built[4] = {7, 7, 7, 7}, totals[3];
    int32_t euler;
    const uint32_t codes[4] = {CUTBORDER_START, CUTBORDER_NEW, CUTBORDER_FORWARD, CUTBORDER_CLOSE};
    memset(&state, 0, sizeof state);
    EXPECT(cutborder_operation(&state, CUTBORDER_START, 0, 0, triangles, 12, places, 1024, built) == 21 && built[0] == 7);
    EXPECT(cutborder_begin(4 + 65536, 4, 4, 1, triangles, 12, places, 1024, &state) == 13 && state.vertices == 0);
    EXPECT(cutborder_begin(4, 4, 4, 1, triangles, 12, places, 1024, &state) == 0 && state.vertices == 4);
    for (int i = 0; i < 4; i++) {
        before = state;
        memcpy(same, places, sizeof places);
        EXPECT(cutborder_operation(&state, 8, 0, 0, triangles, 12, places, 1024, built) == 16);
        EXPECT(cutborder_operation(&state, CUTBORDER_SPLIT, 0, 65536 + 1, triangles, 12, places, 1024, built) == 16);
        EXPECT(memcmp(&before, &state, sizeof state) == 0 && memcmp(same, places, sizeof places) == 0);
        EXPECT(cutborder_operation(&state, codes[i], 0, 0, triangles, 12, places, 1024, built) == 0);
        EXPECT(built[0] == 1 && memcmp(built + 1, as_built + 3 * i, 6) == 0);
    }
    EXPECT(memcmp(triangles, as_built, sizeof as_built) == 0);
    EXPECT(cutborder_finish(&state, triangles, 12, places, 1024, totals, &euler) == 0);
    EXPECT(totals[0] == 6 && totals[1] == 0 && totals[2] == 0 && euler == 2);
}

/* A cube's corners are numbered by their axes, 1 for x, 2 for y, 4 for z; its triangles are turned outwards. The second list has them
 * turned over. */
static const uint16_t cubes[2][36] = {
    {0, 2, 1, 1, 2, 3, 4, 5, 6, 5, 7, 6, 0, 1, 4, 1, 5, 4, 2, 6, 3, 3, 6, 7, 0, 4, 2, 2, 4, 6, 1, 3, 5, 3, 7, 5},
    {0, 1, 2, 1, 3, 2, 4, 6, 5, 5, 6, 7, 0, 4, 1, 1, 4, 5, 2, 3, 6, 3, 7, 6, 0, 2, 4, 2, 6, 4, 1, 5, 3, 3, 5, 7}};
static const int16_t corners[24] = {0, 0, 0, 10, 0, 0, 0, 10, 0, 10, 10, 0, 0, 0, 10, 10, 0, 10, 0, 10, 10, 10, 10, 10};
static uint16_t cube_numbering[8], cube_order[12];
static uint8_t cube_pack[128], plain_pack[128];

/* The positions' field of the cube, in new numbering. */
static void write_field(uint8_t field[51]) {
    field[0] = 3;
    field[1] = 0;
    field[2] = 48;
    for (int i = 0; i < 24; i++) {
        field[3 + 6 * cube_numbering[i / 3] + 2 * (i % 3)] = 0;
        field[4 + 6 * cube_numbering[i / 3] + 2 * (i % 3)] = (uint8_t)corners[i];
    }
}

static uint32_t cube_packed(const uint16_t *cube, const int16_t *positions, size_t entries, size_t bytes) {
    size = 77;
    memset(cube_pack, 5, sizeof cube_pack);
    return cutborder_pack_positions(8, cube, 36, positions, entries, cube_numbering, 8, cube_pack, bytes, cube_order, 12, places, 1024,
                                    &size);
}

/* The pack with positions is the old pack followed by the field; 23 and 11. */
static void packs_positions(const uint16_t *cube) {
    uint8_t field[51];
    int16_t out[24];
    uint32_t plain_size;
    EXPECT(cutborder_pack(8, cube, 36, cube_numbering, 8, plain_pack, sizeof plain_pack, cube_order, 12, places, 1024, &plain_size) == 0);
    memcpy(out, corners, sizeof out);
    out[23] = 2048;
    EXPECT(cube_packed(cube, out, 24, 0) == 23 && size == 77 && cube_pack[0] == 5);
    EXPECT(cube_packed(cube, corners, 23, sizeof cube_pack) == 23 && size == 77 && cube_pack[0] == 5);
    EXPECT(cube_packed(cube, corners, 24, plain_size + 50) == 11 && size == 77 && cube_pack[0] == 0 && cube_pack[plain_size + 50] == 5);
    EXPECT(cube_packed(cube, corners, 24, sizeof cube_pack) == 0 && size == plain_size + 51 && cube_pack[size] == 5);
    write_field(field);
    EXPECT(memcmp(cube_pack, plain_pack, plain_size) == 0 && memcmp(cube_pack + plain_size, field, 51) == 0);
}

/* The volume of the cube that was packed; 14, 23 and 24 leave the memory for results. */
static void measures(int64_t expected_six) {
    uint16_t triangles[37], unpacked[37], model[5] = {7, 7, 7, 7, 7}, same_model[5];
    int32_t euler = -77, same_euler;
    int64_t six = INT64_MIN;
    triangles[36] = unpacked[36] = 9;
    EXPECT(cutborder_volume(cube_pack, size, triangles, 35, places, 1024, model, &euler, &six) == 14);
    triangles[1] = 9;
    EXPECT(cutborder_volume(cube_pack, size - 51, triangles, 37, places, 1024, model, &euler, &six) == 24 && triangles[1] == 0);
    cube_pack[size - 2] = 8;
    triangles[1] = 9;
    EXPECT(cutborder_volume(cube_pack, size, triangles, 37, places, 1024, model, &euler, &six) == 23 && triangles[1] == 0);
    cube_pack[size - 2] = 0;
    EXPECT(model[0] == 7 && model[4] == 7 && euler == -77 && six == INT64_MIN && triangles[36] == 9);
    EXPECT(cutborder_volume(cube_pack, size, triangles, 37, places, 1024, model, &euler, &six) == 0 && six == expected_six);
    EXPECT(model[0] == 8 && model[1] == 12 && model[2] == 18 && model[3] == 0 && model[4] == 0 && euler == 2);
    EXPECT(cutborder_unpack(cube_pack, size, unpacked, 37, places, 1024, same_model, &same_euler) == 0);
    EXPECT(memcmp(triangles, unpacked, sizeof triangles) == 0 && memcmp(model, same_model, sizeof model) == 0 && euler == same_euler);
}

/* A model with a rim has no volume: 24. */
static void rim(void) {
    static const uint16_t triangle[3] = {0, 1, 2};
    uint16_t triangles[3], model[5];
    int32_t euler;
    int64_t six = 77;
    EXPECT(cutborder_pack_positions(3, triangle, 3, corners, 9, numbering, 4, pack, sizeof pack, order, 6, places, 1024, &size) == 0);
    EXPECT(cutborder_volume(pack, size, triangles, 3, places, 1024, model, &euler, &six) == 24 && six == 77);
    EXPECT(cutborder_unpack(pack, size, triangles, 3, places, 1024, model, &euler) == 0 && model[3] == 1);
}

static const uint8_t note[65] = "Order 4711: two of these, \0 by Friday";

/* M2 with so many bytes of the note, and with positions if they are given. */
static uint32_t note_packed(const int16_t *positions, size_t note_bytes, size_t pack_bytes) {
    size = 77;
    memset(cube_pack, 5, sizeof cube_pack);
    if (!positions)
        return cutborder_pack_note(4, list, 12, note, note_bytes, numbering, 4, cube_pack, pack_bytes, order, 6, places, 1024, &size);
    return cutborder_pack_positions_note(4, list, 12, positions, 12, note, note_bytes, numbering, 4, cube_pack, pack_bytes, order, 6,
                                         places, 1024, &size);
}

/* The pack with a note is the pack without, `plain_pack`, followed by the field; 23, 25 and 11. */
static void packs_note(const int16_t *positions, uint32_t plain_size) {
    static const int16_t out[12] = {2048};
    EXPECT(note_packed(positions, 0, 0) == 25 && size == 77 && cube_pack[0] == 5);
    EXPECT(note_packed(positions, 65, sizeof cube_pack) == 25 && size == 77 && cube_pack[0] == 5);
    EXPECT(note_packed(out, 65, sizeof cube_pack) == 23 && size == 77 && cube_pack[0] == 5);
    EXPECT(note_packed(positions, 1, plain_size + 3) == 11 && size == 77 && cube_pack[0] == 0 && cube_pack[plain_size + 3] == 5);
    EXPECT(note_packed(positions, 1, plain_size + 4) == 0 && size == plain_size + 4);
    EXPECT(note_packed(positions, 64, sizeof cube_pack) == 0 && size == plain_size + 67 && cube_pack[size] == 5);
    EXPECT(memcmp(cube_pack, plain_pack, plain_size) == 0 && memcmp(cube_pack + plain_size + 3, note, 64) == 0);
    EXPECT(cube_pack[plain_size] == 4 && cube_pack[plain_size + 1] == 0 && cube_pack[plain_size + 2] == 64);
}

/* The note that was packed last is read back as a part of the pack; the other calls answer as without it. */
static void reads_note(uint32_t plain_size, uint32_t volume_answer) {
    uint16_t triangles[12], model[5] = {7, 7, 7, 7, 7};
    int32_t euler = -77;
    int64_t six = 77;
    size_t start = 7, length = 7;
    EXPECT(cutborder_bench(cube_pack, size, triangles, 12, places, 1024, model, &euler, &start, &length) == 0);
    EXPECT(start == plain_size + 3 && length == 64 && memcmp(cube_pack + start, note, length) == 0);
    EXPECT(memcmp(triangles, as_built, sizeof as_built) == 0 && model[0] == 4 && model[2] == 6 && euler == 2);
    EXPECT(cutborder_bench(cube_pack, plain_size, triangles, 12, places, 1024, model, &euler, &start, &length) == 0);
    EXPECT(start == 0 && length == 0);
    start = 7;
    EXPECT(cutborder_bench(cube_pack, size - 1, triangles, 12, places, 1024, model, &euler, &start, &length) == 12);
    EXPECT(start == 0 && length == 0);
    EXPECT(cutborder_unpack(cube_pack, size, triangles, 12, places, 1024, model, &euler) == 0 && model[1] == 4 && euler == 2);
    EXPECT(cutborder_volume(cube_pack, size, triangles, 12, places, 1024, model, &euler, &six) == volume_answer);
    EXPECT(six == (volume_answer == 0 ? -125 : 77));
    cube_pack[plain_size + 2] = 0;
    EXPECT(cutborder_volume(cube_pack, plain_size + 3, triangles, 12, places, 1024, model, &euler, &six) == 25 && triangles[1] == 0);
    EXPECT(cutborder_bench(cube_pack, plain_size + 3, triangles, 12, places, 1024, model, &euler, &start, &length) == 25 && length == 0);
}

/* M2 with a note, without positions, where volume is 24, and with them. */
static void notes(void) {
    static const int16_t positions[12] = {0, 0, 0, 5, 0, 0, 0, 5, 0, 0, 0, 5};
    uint32_t plain_size;
    EXPECT(cutborder_pack(4, list, 12, numbering, 4, plain_pack, sizeof plain_pack, order, 6, places, 1024, &plain_size) == 0);
    packs_note(NULL, plain_size);
    reads_note(plain_size, 24);
    EXPECT(cutborder_pack_positions(4, list, 12, positions, 12, numbering, 4, plain_pack, sizeof plain_pack, order, 6, places, 1024,
                                    &plain_size) == 0);
    packs_note(positions, plain_size);
    reads_note(plain_size, 0);
}

/* A list that 5 refuses, 5 to 6 being in three triangles, the last of which is triangle 2. */
static void searches(void) {
    static const uint16_t thrice[12] = {5, 6, 7, 10, 5, 6, 6, 9, 5, 6, 5, 8};
    static uint16_t links[CUTBORDER_LINKS];
    uint16_t found[3] = {7, 7, 7};
    EXPECT(cutborder_check(11, thrice, 12) == 5);
    memset(links, 0xaa, sizeof links);
    /* Links of no list: any answer, and nothing else is touched. */
    EXPECT(cutborder_search(thrice, 12, links, 5, 6, found) <= 1 && links[0] == 0xaaaa);
    EXPECT(cutborder_link(10, thrice, 12, links) == 3 && links[0] == 0xaaaa && links[CUTBORDER_LINKS - 1] == 0xaaaa);
    EXPECT(cutborder_link(11, thrice, 12, links) == 0);
    EXPECT(cutborder_search(thrice, 12, links, 6, 7, found) == 1 && found[0] == 0 && found[1] == 0 && found[2] == 5);
    EXPECT(cutborder_search(thrice, 12, links, 5, 6, found) == 1 && found[0] == 2 && found[1] == 1 && found[2] == 9);
    EXPECT(cutborder_search(thrice, 12, links, 7, 6, found) == 0 && found[0] == 2 && found[1] == 1 && found[2] == 9);
}

/* The cube's pack, read by the furnace's own reader in a memory that holds anything; refused, `six` is as it was. */
static void melts(const uint16_t *cube, int64_t expected_six) {
    static struct {
        uint8_t before[8], memory[1024], after[8];
    } lent;
    int64_t six = 77;
    memset(&lent, 0xaa, sizeof lent);
    EXPECT(cube_packed(cube, corners, 24, sizeof cube_pack) == 0);
    EXPECT(furnace_read(cube_pack, size, lent.memory, &six) == 0 && six == expected_six);
    six = 77;
    EXPECT(furnace_read(cube_pack, size - 1, lent.memory, &six) == 12 && six == 77);
    EXPECT(furnace_read(cube_pack, size - 51, lent.memory, &six) == 24 && six == 77);
    cube_pack[10] = 13;
    EXPECT(furnace_read(cube_pack, size, lent.memory, &six) == 26 && six == 77);
    cube_pack[10] = 12;
    EXPECT(furnace_read(cube_pack, size, lent.memory, &six) == 19 && six == 77);
    cube_pack[10] = 0;
    EXPECT(furnace_read(cube_pack, size, lent.memory, &six) == 13 && six == 77);
    EXPECT(lent.before[7] == 0xaa && lent.after[0] == 0xaa);
}

int main(void) {
    EXPECT(sizeof(struct cutborder_place) == 8 && sizeof(struct cutborder_builder) == 426);
    packs();
    builds();
    for (int i = 0; i < 2; i++) {
        packs_positions(cubes[i]);
        measures(i == 0 ? 6000 : -6000);
        melts(cubes[i], i == 0 ? 6000 : -6000);
    }
    rim();
    notes();
    searches();
    return wrong != 0;
}
