/* How much stack each call takes: it runs on a stack of its own that was painted before, and takes what is no longer paint. Prints a line
 * for each call, its name and the most bytes over all inputs: large models and small ones, refused lists, packs with bytes changed or lost,
 * and buildings with wrong operations among the right ones. Link it with -Wl,-z,now: else the dynamic linker's own stack comes in. */
#define _XOPEN_SOURCE 700
#include "../../include/cutborder.h"
#include "../../include/cutborder_search.h"
#include "../../include/furnace.h"
#include <stdio.h>
#include <string.h>
#include <ucontext.h>

enum { STACK = 1 << 20, PAINT = 0xc5, NAMES = 15, CHANGED = 25 };

/* What the calls are lent, and what they are asked. */
static uint16_t list[CUTBORDER_ENTRIES], numbering[CUTBORDER_VERTICES], order[CUTBORDER_TRIANGLES], triangles[CUTBORDER_ENTRIES];
static uint16_t links[CUTBORDER_LINKS], model[5], built[4], totals[3], found[3];
static int16_t positions[3 * CUTBORDER_VERTICES];
static uint8_t pack[CUTBORDER_PACK_BYTES], note[CUTBORDER_NOTE_BYTES], memory[FURNACE_MEMORY];
static struct cutborder_place places[CUTBORDER_PLACES];
static struct cutborder_builder state;
static size_t v, entries, bytes, start, length;
static size_t numbering_lent, order_lent, places_lent, positions_lent, note_lent, pack_lent, triangles_lent;
static uint32_t size, code, p, j, answer;
static int32_t euler;
static int64_t six;

static void nothing(void) {
}
static void check(void) {
    answer = cutborder_check(v, list, entries);
}
static void packs(void) {
    answer = cutborder_pack(v, list, entries, numbering, numbering_lent, pack, pack_lent, order, order_lent, places, places_lent, &size);
}
static void packs_positions(void) {
    answer = cutborder_pack_positions(v, list, entries, positions, positions_lent, numbering, numbering_lent, pack, pack_lent, order,
                                      order_lent, places, places_lent, &size);
}
static void packs_note(void) {
    answer = cutborder_pack_note(v, list, entries, note, note_lent, numbering, numbering_lent, pack, pack_lent, order, order_lent, places,
                                 places_lent, &size);
}
static void packs_both(void) {
    answer = cutborder_pack_positions_note(v, list, entries, positions, positions_lent, note, note_lent, numbering, numbering_lent, pack,
                                           pack_lent, order, order_lent, places, places_lent, &size);
}
static void unpacks(void) {
    answer = cutborder_unpack(pack, bytes, triangles, triangles_lent, places, places_lent, model, &euler);
}
static void volume(void) {
    answer = cutborder_volume(pack, bytes, triangles, triangles_lent, places, places_lent, model, &euler, &six);
}
static void bench(void) {
    answer = cutborder_bench(pack, bytes, triangles, triangles_lent, places, places_lent, model, &euler, &start, &length);
}
static void begins(void) {
    answer = cutborder_begin(pack[3] * 256u + pack[4], pack[5] * 256u + pack[6], pack[7] * 256u + pack[8], pack[9] * 256u + pack[10],
                             triangles, triangles_lent, places, places_lent, &state);
}
static void operates(void) {
    answer = cutborder_operation(&state, code, p, j, triangles, triangles_lent, places, places_lent, built);
}
static void finishes(void) {
    answer = cutborder_finish(&state, triangles, triangles_lent, places, places_lent, totals, &euler);
}
static void link_list(void) {
    answer = cutborder_link(v, list, entries, links);
}
static void search(void) {
    answer = cutborder_search(list, entries, links, (uint16_t)p, (uint16_t)j, found);
}
static void melts(void) {
    answer = furnace_read(pack, bytes, memory, &six);
}

static const struct {
    const char *name;
    void (*call)(void);
} calls[NAMES] = {{"nothing", nothing},
                  {"cutborder_check", check},
                  {"cutborder_pack", packs},
                  {"cutborder_pack_positions", packs_positions},
                  {"cutborder_pack_note", packs_note},
                  {"cutborder_pack_positions_note", packs_both},
                  {"cutborder_unpack", unpacks},
                  {"cutborder_volume", volume},
                  {"cutborder_bench", bench},
                  {"cutborder_begin", begins},
                  {"cutborder_operation", operates},
                  {"cutborder_finish", finishes},
                  {"cutborder_link", link_list},
                  {"cutborder_search", search},
                  {"furnace_read", melts}};
static size_t most[NAMES];
static unsigned met[32]; /* how often each answer was met */

_Alignas(64) static uint8_t stack[STACK];

static uint8_t paint[1024];

/* Runs call n on the painted stack; what it took is painted again. */
static void measure(int n) {
    static ucontext_t outside, inside;
    getcontext(&inside);
    inside.uc_stack.ss_sp = stack;
    inside.uc_stack.ss_size = STACK;
    inside.uc_link = &outside;
    makecontext(&inside, calls[n].call, 0);
    swapcontext(&outside, &inside);
    size_t low = 0;
    while (low < STACK && memcmp(stack + low, paint, sizeof paint) == 0)
        low += sizeof paint;
    while (low < STACK && stack[low] == PAINT)
        low++;
    memset(stack + low, PAINT, STACK - low);
    if (STACK - low > most[n])
        most[n] = STACK - low;
    met[answer % 32]++;
}

/* Runs the call of a function. */
static void run(void (*call)(void)) {
    int n = 0;
    while (calls[n].call != call)
        n++;
    measure(n);
}

static uint32_t random_below(uint32_t n) {
    static uint32_t seed = 1;
    seed = seed * 1664525u + 1013904223u;
    return (seed >> 8) % n;
}

/* A grid of n by m squares of two triangles, closed both ways (a ring) or open (a sheet with a rim). */
static void make_grid(size_t n, size_t m, bool closed) {
    size_t rows = closed ? n : n + 1, columns = closed ? m : m + 1;
    uint16_t *next = list;
    v = rows * columns;
    for (size_t square = 0; square < n * m; square++) {
        size_t i = square / m, k = square % m, below = (i + 1) % rows, right = (k + 1) % columns;
        const size_t two[6] = {i * columns + k, below * columns + k,     below * columns + right,
                               i * columns + k, below * columns + right, i * columns + right};
        for (int c = 0; c < 6; c++)
            *next++ = (uint16_t)two[c];
    }
    entries = (size_t)(next - list);
}

/* Two poles over an equator of n vertices: the loop about a pole has n places, 9 if that is over 1,024. */
static void make_spindle(size_t n) {
    v = n + 2;
    entries = 6 * n;
    for (size_t i = 0; i < n; i++) {
        size_t after = (i + 1) % n;
        const size_t two[6] = {i, after, n, after, i, n + 1};
        for (int c = 0; c < 6; c++)
            list[6 * i + c] = (uint16_t)two[c];
    }
}

/* The triangles in another order. */
static void shuffle(void) {
    for (size_t t = entries / 3; t > 1; t--) {
        uint16_t *a = list + 3 * (t - 1), *b = list + 3 * random_below((uint32_t)t), kept[3];
        memcpy(kept, a, sizeof kept);
        memmove(a, b, sizeof kept);
        memcpy(b, kept, sizeof kept);
    }
}

/* Buffers of the lengths that the list and its pack ask for. */
static void lend(void) {
    numbering_lent = v;
    order_lent = entries / 3;
    places_lent = CUTBORDER_PLACES;
    positions_lent = 3 * v;
    note_lent = sizeof note;
    pack_lent = sizeof pack;
    triangles_lent = CUTBORDER_ENTRIES;
}

/* Every call on the list; last it is packed whole. */
static void try_list(void) {
    static void (*const all[])(void) = {check, link_list, packs, packs_positions, packs_note, packs_both};
    lend();
    for (size_t i = 0; i < sizeof all / sizeof *all; i++)
        run(all[i]);
}

/* The packing calls with each buffer too short in turn: 8, 22, 23, 25 and 11. */
static void try_short(void) {
    static size_t *const lents[] = {&numbering_lent, &places_lent, &order_lent, &positions_lent, &note_lent, &pack_lent};
    for (size_t i = 0; i < sizeof lents / sizeof *lents; i++) {
        lend();
        *lents[i] = 0;
        run(packs);
        run(packs_positions);
        run(packs_note);
        run(packs_both);
    }
}

/* The list with a number changed, so that 3 to 7 are met; it is as it was afterwards. */
static void change_list(void) {
    for (int i = 0; i < CHANGED; i++) {
        size_t at = random_below((uint32_t)entries);
        uint16_t kept = list[at];
        list[at] = (uint16_t)random_below((uint32_t)v + 2);
        try_list();
        p = list[at];
        j = list[at % 3 == 2 ? at - 2 : at + 1];
        run(search);
        list[at] = kept;
    }
    v += 1; /* 6 */
    try_list();
    v -= 1;
    entries -= 1; /* 1 */
    try_list();
    entries += 1;
}

static void read_pack(void) {
    static void (*const all[])(void) = {unpacks, volume, bench, melts};
    for (size_t i = 0; i < sizeof all / sizeof *all; i++)
        run(all[i]);
}

/* The pack as it is, with a byte changed, and cut short. */
static void try_pack(void) {
    bytes = size;
    read_pack();
    for (int i = 0; i < 4 * CHANGED; i++) {
        size_t at = random_below(i % 2 ? 40 : size) % size;
        uint8_t kept = pack[at];
        pack[at] ^= (uint8_t)(1 + random_below(255));
        read_pack();
        run(begins);
        pack[at] = kept;
    }
    bytes = size / 2;
    read_pack();
    bytes = size;
    triangles_lent = 0; /* 14 */
    read_pack();
    run(begins);
    lend();
}

static uint32_t take_bits(size_t *at, int count) {
    uint32_t value = 0;
    for (; count > 0; count--, ++*at)
        value = value << 1 | (pack[*at / 8] >> (7 - *at % 8) & 1u);
    return value;
}

/* Any operation, a finish, and a state that no building comes to; all is as it was afterwards. */
static void try_others(void) {
    static struct cutborder_place kept_places[CUTBORDER_PLACES];
    static uint16_t kept_triangles[CUTBORDER_ENTRIES];
    struct cutborder_builder kept = state;
    memcpy(kept_places, places, sizeof places);
    memcpy(kept_triangles, triangles, sizeof triangles);
    run(finishes);
    code = random_below(9);
    p = random_below(3);
    j = random_below(40);
    run(operates);
    state.live += 1;
    run(operates);
    run(finishes);
    state = kept;
    memcpy(places, kept_places, sizeof places);
    memcpy(triangles, kept_triangles, sizeof triangles);
}

/* The pack's model built, with others among its operations. */
static void try_building(void) {
    size_t at = 8 * 14;
    run(begins);
    do {
        if (random_below(8) == 0)
            try_others();
        code = take_bits(&at, 3);
        p = code == CUTBORDER_UNION ? take_bits(&at, 7) : 0;
        j = code == CUTBORDER_UNION || code == CUTBORDER_SPLIT ? take_bits(&at, 10) : 0;
        run(operates);
    } while (answer == 0 && (state.built < state.triangles || state.live > 0));
    run(finishes);
}

/* All that is tried with the list that was made. */
static void try_all(void) {
    try_short();
    change_list();
    try_list();
    if (answer == 0) {
        try_pack();
        try_building();
    }
}

/* A pack whose operations leave a vertex with two fans, 20: start, new seven times, forward, split 2, then border ten times. */
static void try_pinched(void) {
    static const uint8_t pinched[] = {1, 0, 8, 0, 10, 0, 10, 0, 10, 0, 2, 2, 0, 9, 0xe0, 0, 0, 0x30, 2, 0x6d, 0xb6, 0xdb, 0x6c};
    memcpy(pack, pinched, sizeof pinched);
    bytes = size = sizeof pinched;
    lend();
    read_pack();
    try_building();
}

int main(void) {
    static const size_t sides[][2] = {{3, 3}, {8, 6}, {31, 11}, {64, 64}};
    memset(paint, PAINT, sizeof paint);
    memset(stack, PAINT, sizeof stack);
    for (size_t i = 0; i < sizeof positions / sizeof *positions; i++)
        positions[i] = (int16_t)(random_below(4096) - 2048);
    run(nothing);
    for (size_t i = 0; i < 16; i++) {
        size_t open = i / 2 % 2; /* an open grid has a row and a column of vertices more */
        make_grid(sides[i / 4][0] - open, sides[i / 4][1] - open, !open);
        if (i % 2)
            shuffle();
        try_all();
    }
    make_spindle(900);
    try_all();
    make_spindle(1100);
    try_all();
    try_pinched();
    for (int n = 1; n < NAMES; n++)
        printf("%s %zu\n", calls[n].name, most[n] - most[0]);
    fprintf(stderr, "answers met:");
    for (unsigned n = 0; n < 32; n++)
        if (met[n])
            fprintf(stderr, " %u", n);
    fputc('\n', stderr);
    return 0;
}
