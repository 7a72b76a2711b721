/* A first program in C: packs a ring with its positions and a note, unpacks it, tells its volume, reads the note back, and builds the ring
 * again, one operation at a time. Each answer is a line.
 *
 *     cc -std=c11 -o ring examples/ring.c target/staticlib/libcapi.a target/staticlib/libfurnace.a && ./ring ring8.pack
 *
 * writes the pack to the file too, so that the programs can read it: `target/bin/volume ring8.pack`. */
#include "../include/cutborder.h"
#include "../include/furnace.h"
#include <stdio.h>
#include <string.h>

/* The ring is a grid of 8 by 6 squares, closed both ways: 8 along the ring, 6 around the tube. A square is two triangles. */
enum { ALONG = 8, AROUND = 6, VERTICES = ALONG * AROUND, TRIANGLES = 2 * VERTICES, ENTRIES = 3 * TRIANGLES };

/* What the calls are lent. None of them allocates memory or keeps any, so all of it is the caller's. Here it is static: zero at first, as
 * place records may be. */
static uint16_t list[ENTRIES], numbering[VERTICES], order[TRIANGLES], triangles[ENTRIES], built_triangles[ENTRIES];
static int16_t positions[3 * VERTICES];
static uint8_t pack[CUTBORDER_PACK_BYTES], memory[FURNACE_MEMORY];
static struct cutborder_place places[CUTBORDER_PLACES];
static uint32_t size; /* bytes of the pack */

static uint16_t vertex(int i, int j) {
    return (uint16_t)(AROUND * (i % ALONG) + j % AROUND);
}

/* The triangles turn counter-clockwise as seen from outside, so that the volume is positive. */
static void make_list(void) {
    for (int square = 0; square < VERTICES; square++) {
        int i = square / AROUND, j = square % AROUND;
        uint16_t a = vertex(i, j), b = vertex(i + 1, j), c = vertex(i + 1, j + 1), d = vertex(i, j + 1);
        const uint16_t two[6] = {a, b, c, a, c, d};
        memcpy(list + 6 * square, two, sizeof two);
    }
}

/* Grid positions, from -2,048 to 2,047: an octagon of hexagons. */
static void make_positions(void) {
    static const int cosine[ALONG] = {10, 7, 0, -7, -10, -7, 0, 7}; /* in tenths */
    static const int out[AROUND] = {140, 120, 80, 60, 80, 120}, up[AROUND] = {0, 350, 350, 0, -350, -350};
    for (int n = 0; n < VERTICES; n++) {
        int i = n / AROUND, j = n % AROUND;
        positions[3 * n] = (int16_t)(cosine[i] * out[j]);
        positions[3 * n + 1] = (int16_t)(cosine[(i + 6) % ALONG] * out[j]);
        positions[3 * n + 2] = (int16_t)up[j];
    }
}

/* Whether a call was accepted. What a refusal's number means stands at the top of cutborder.h. */
static bool accepted(const char *call, uint32_t answer) {
    if (answer == 0)
        printf("%s: accepted\n", call);
    else
        printf("%s: refused %u\n", call, (unsigned)answer);
    return answer == 0;
}

static void print_numbers(const char *name, const uint16_t *numbers, size_t count) {
    printf("%s:", name);
    for (size_t i = 0; i < count; i++)
        printf(" %u", numbers[i]);
    putchar('\n');
}

/* Besides the pack: vertex n of the list is vertex numbering[n] of the pack; triangle i of the pack is triangle order[i] of the list. */
static bool packs(void) {
    static const uint8_t note[] = {'t', 'w', 'o', ' ', 'o', 'f', ' ', 't', 'h', 'e', 's', 'e'};
    uint32_t answer = cutborder_pack_positions_note(VERTICES, list, ENTRIES, positions, 3 * VERTICES, note, sizeof note, numbering,
                                                    VERTICES, pack, sizeof pack, order, TRIANGLES, places, CUTBORDER_PLACES, &size);
    if (!accepted("pack", answer))
        return false;
    printf("bytes: %u\n", (unsigned)size);
    print_numbers("numbering", numbering, VERTICES);
    print_numbers("order", order, TRIANGLES);
    return true;
}

/* One call for whoever wants the triangles and the note, one for whoever wants the volume; and the furnace's own, in 1,024 bytes. */
static bool unpacks(void) {
    uint16_t model[5];
    int32_t euler;
    int64_t six, melted;
    size_t start, length;
    if (!accepted("unpack", cutborder_bench(pack, size, triangles, ENTRIES, places, CUTBORDER_PLACES, model, &euler, &start, &length)))
        return false;
    print_numbers("vertices, triangles, edges, rims, unions", model, 5);
    printf("Euler number: %d\nnote: %.*s\n", (int)euler, (int)length, (const char *)pack + start);
    print_numbers("triangles", triangles, ENTRIES);
    if (!accepted("volume", cutborder_volume(pack, size, triangles, ENTRIES, places, CUTBORDER_PLACES, model, &euler, &six)))
        return false;
    if (!accepted("furnace", furnace_read(pack, size, memory, &melted)))
        return false;
    printf("six times the volume: %lld, the furnace's: %lld\n", (long long)six, (long long)melted);
    return !accepted("a pack cut short", furnace_read(pack, size - 1, memory, &melted));
}

/* So many bits of the pack from bit *at on, the high one first. */
static uint32_t take_bits(uint32_t *at, int count) {
    uint32_t value = 0;
    for (; count > 0; count--, ++*at)
        value = value << 1 | (pack[*at / 8] >> (7 - *at % 8) & 1u);
    return value;
}

/* The next operation of the pack: a code of three bits, then the indices, if it is a split or a union (docs/FORMAT.md). */
static bool operates(struct cutborder_builder *state, uint32_t *at) {
    static const char *const names[8] = {"new", "forward", "backward", "border", "split", "close", "union", "start"};
    uint32_t code = take_bits(at, 3);
    uint32_t p = code == CUTBORDER_UNION ? take_bits(at, 7) : 0;
    uint32_t j = code == CUTBORDER_UNION || code == CUTBORDER_SPLIT ? take_bits(at, 10) : 0;
    uint16_t built[4];
    uint32_t answer = cutborder_operation(state, code, p, j, built_triangles, ENTRIES, places, CUTBORDER_PLACES, built);
    if (answer != 0)
        return accepted(names[code], answer);
    print_numbers(names[code], built + 1, built[0] ? 3 : 0);
    return true;
}

/* The counts stand in the pack from byte 3 on, two bytes each; the operations from byte 14. The model is complete when all triangles are
 * built and no loop is live. */
static bool builds(void) {
    struct cutborder_builder state;
    uint16_t totals[3];
    int32_t euler;
    uint32_t at = 8 * 14, most_places = pack[7] * 256u + pack[8], most_loops = pack[9] * 256u + pack[10];
    if (!accepted("begin", cutborder_begin(VERTICES, TRIANGLES, most_places, most_loops, built_triangles, ENTRIES, places,
                                           CUTBORDER_PLACES, &state)))
        return false;
    while (state.built < TRIANGLES || state.live > 0)
        if (!operates(&state, &at))
            return false;
    if (!accepted("finish", cutborder_finish(&state, built_triangles, ENTRIES, places, CUTBORDER_PLACES, totals, &euler)))
        return false;
    print_numbers("edges, rims, unions", totals, 3);
    printf("Euler number: %d\n", (int)euler);
    return memcmp(built_triangles, triangles, sizeof triangles) == 0;
}

static bool stores(const char *name) {
    FILE *file = fopen(name, "wb");
    return file && fwrite(pack, 1, size, file) == size && fclose(file) == 0;
}

int main(int argc, char **argv) {
    make_list();
    make_positions();
    bool done = accepted("check", cutborder_check(VERTICES, list, ENTRIES)) && packs() && unpacks() && builds();
    return done && (argc < 2 || stores(argv[1])) ? 0 : 1;
}
