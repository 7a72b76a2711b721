/* A library with one fault, which the variable WRONG names by its number: the fuzzer has to find each. The linker puts these functions
 * before the library's (--wrap). */
#include "fuzz.h"

#define REAL(returned, name, ...)         \
    returned __real_##name(__VA_ARGS__);  \
    returned __wrap_##name(__VA_ARGS__);  \
    returned __wrap_##name(__VA_ARGS__)

static int wrong(void)
{
    static int number = -1;
    if (number < 0)
        number = atoi(getenv("WRONG"));
    return number;
}

/* 1: an entry is written behind the triangles that were lent. 2: 13 for 12. 3: the last entry of a refused pack's triangles is not zero.
 * 4: the answer 19 changes the memory for results. 5: a model of 12 triangles has an edge too few. */
REAL(uint32_t, cutborder_unpack, const uint8_t *pack, size_t bytes, uint16_t *triangles, size_t entries, struct cutborder_place *places,
     size_t records, uint16_t *model, int32_t *euler)
{
    uint32_t n = __real_cutborder_unpack(pack, bytes, triangles, entries, places, records, model, euler);
    if (wrong() == 1 && n == 0)
        triangles[entries] = 0;
    if (wrong() == 2 && n == 12 && bytes > 40)
        return 13;
    if (wrong() == 3 && n == 16)
        triangles[3 * (pack[5] << 8 | pack[6]) - 1] = 1;
    if (wrong() == 4 && n == 19)
        model[4] = 0;
    if (wrong() == 5 && n == 0 && model[1] == 12)
        model[2]--;
    return n;
}

/* 6: a byte behind the pack is read. 7: the volume is wrong from 20 triangles on. */
REAL(uint8_t, furnace_read, const uint8_t *pack, uint64_t bytes, uint8_t *memory, int64_t *six)
{
    if (wrong() == 6)
        memory[1023] = *(const volatile uint8_t *)(pack + bytes);
    uint8_t n = __real_furnace_read(pack, bytes, memory, six);
    if (wrong() == 7 && n == 0 && pack[6] >= 20)
        *six += 1;
    return n;
}

/* 8: after 11 the numbering is left. 9: a place record is left. 10: the order has a number twice where a model has over 30 triangles. */
REAL(uint32_t, cutborder_pack, size_t v, const uint16_t *list, size_t entries, uint16_t *numbering, size_t numbering_entries,
     uint8_t *pack, size_t pack_bytes, uint16_t *order, size_t order_entries, struct cutborder_place *places, size_t records,
     uint32_t *size)
{
    uint32_t n = __real_cutborder_pack(v, list, entries, numbering, numbering_entries, pack, pack_bytes, order, order_entries, places,
                                       records, size);
    if (wrong() == 8 && n == 11)
        numbering[v - 1] = 1;
    if (wrong() == 9 && n == 0)
        places[1023].after = 1;
    if (wrong() == 10 && n == 0 && entries > 90)
        order[20] = order[19];
    return n;
}

/* 11: 18 changes a record. 12: a record is written where a damaged state says. */
REAL(uint32_t, cutborder_operation, struct cutborder_builder *state, uint32_t code, uint32_t p, uint32_t j, uint16_t *triangles,
     size_t entries, struct cutborder_place *places, size_t records, uint16_t *built)
{
    uint32_t n = __real_cutborder_operation(state, code, p, j, triangles, entries, places, records, built);
    if (wrong() == 11 && n == 18)
        places[state->current[state->live - 1]].vertex ^= 1;
    if (wrong() == 12 && n == 21)
        places[state->current[0] % 4096].open = false;
    return n;
}

/* 13: the first triangle with an edge is found, not the last. */
REAL(uint32_t, cutborder_search, const uint16_t *list, size_t entries, const uint16_t *links, uint16_t p, uint16_t q, uint16_t *found)
{
    uint32_t n = __real_cutborder_search(list, entries, links, p, q, found);
    for (size_t i = 0; wrong() == 13 && n == 1 && i + 2 < entries; i += 3)
        if (list[i] == p && list[i + 1] == q)
            return found[0] = (uint16_t)(i / 3), found[1] = 2, found[2] = list[i + 2], n;
    return n;
}

/* 14: an edge too few is told of a model with a union and a rim. */
REAL(uint32_t, cutborder_finish, const struct cutborder_builder *state, const uint16_t *triangles, size_t entries,
     const struct cutborder_place *places, size_t records, uint16_t *totals, int32_t *euler)
{
    uint32_t n = __real_cutborder_finish(state, triangles, entries, places, records, totals, euler);
    if (wrong() == 14 && n == 0 && totals[1] > 0 && totals[2] > 0)
        totals[0]--;
    return n;
}

/* 15: the place of a note of 64 bytes behind the positions of four vertices. */
REAL(uint32_t, cutborder_bench, const uint8_t *pack, size_t bytes, uint16_t *triangles, size_t entries, struct cutborder_place *places,
     size_t records, uint16_t *model, int32_t *euler, size_t *start, size_t *length)
{
    uint32_t n = __real_cutborder_bench(pack, bytes, triangles, entries, places, records, model, euler, start, length);
    if (wrong() == 15 && n == 0 && *length == 64 && model[0] == 4 && *start > 40)
        *start -= 1;
    return n;
}
