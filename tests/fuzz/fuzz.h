/* What the parts of the fuzzer share: the input, lent memory, what was answered. */
#ifndef FUZZ_H
#define FUZZ_H

#include "../../include/cutborder.h"
#include "../../include/cutborder_search.h"
#include "../../include/furnace.h"
#include <stdio.h>
#include <stdlib.h>
#include <string.h>

/* A promise that is broken ends the run: the input is kept by libFuzzer. */
#define MUST(holds, ...)                                         \
    do {                                                         \
        if (!(holds)) {                                          \
            fprintf(stderr, "BROKEN (%s): ", #holds);            \
            fprintf(stderr, __VA_ARGS__);                        \
            fprintf(stderr, "\n");                               \
            abort();                                             \
        }                                                        \
    } while (0)

/* The input that is left; a byte past its end is 0. */
struct input {
    const uint8_t *at;
    size_t left;
};

static inline uint8_t byte_of(struct input *in)
{
    if (in->left == 0)
        return 0;
    in->left--;
    return *in->at++;
}

static inline uint16_t two_of(struct input *in)
{
    uint16_t high = byte_of(in);
    return (uint16_t)(high << 8 | byte_of(in));
}

/* A length by a byte of the input: mostly what is needed, else just below, just above, nothing, or far off. */
size_t about(size_t needed, uint8_t knob);

/* rooms.c: memory that is lent to a call, of exactly so many bytes. It lies against an inaccessible page, behind or before it, with 64
 * known bytes on its other side; or on the heap, where the address sanitizer watches both sides. */
struct room {
    uint8_t *at;
    const uint8_t *before; /* what it was lent with */
    size_t bytes;
};

enum where { AGAINST_NEXT, AGAINST_LAST, ON_HEAP };

void rooms_open(unsigned where);
void rooms_close(void); /* nothing was written beside any of them */
struct room lend_bytes(const void *contents, size_t bytes);
struct room lend_any(size_t bytes, uint8_t filler);
struct room lend_places(size_t records, uint8_t filler);
void forget(struct room r); /* what it holds now is what it was lent with */

bool is_same_from(struct room r, size_t from); /* the bytes from there on are as they were lent */
bool is_zero(struct room r, size_t bytes);     /* the first so many bytes are zero */
bool places_same_from(struct room r, size_t from);
bool places_zero(struct room r);

static inline bool is_same(struct room r) { return is_same_from(r, 0); }
static inline bool places_same(struct room r) { return places_same_from(r, 0); }

/* main.c: counts an answer, which is one that the call can give. */
enum call {
    CHECK, PACK, PACK_POSITIONS, PACK_NOTE, PACK_POSITIONS_NOTE, UNPACK, VOLUME, BENCH, BEGIN, OPERATION, FINISH, LINK, SEARCH, MELT, CALLS
};
uint32_t answered(enum call call, uint32_t n);

/* How memory is lent to the calls of one input. */
struct lending {
    uint8_t where, filler, entries, records, more;
};

/* packs.c: a pack read by all four calls. What unpacking answers. If it accepts, `triangles` has the model. */
struct model {
    uint32_t v, t, edges, rims, unions;
    int32_t euler;
    uint16_t triangles[CUTBORDER_ENTRIES];
};
bool in_range(const uint32_t counts[4]); /* not 13 */
uint32_t read_pack(const uint8_t *pack, size_t bytes, struct lending with, struct model *model);
void fuzz_packs(struct input *in);

/* lists.c: a list with what goes into its pack besides; null is not given. */
struct list {
    size_t v, entries;
    const uint16_t *numbers;
    const int16_t *positions;
    size_t position_entries;
    const uint8_t *note;
    size_t note_bytes;
};

/* A pack with what packing told besides. */
struct packed {
    uint32_t size;
    uint8_t bytes[CUTBORDER_PACK_BYTES];
    uint16_t numbering[CUTBORDER_VERTICES], order[CUTBORDER_TRIANGLES];
};

/* A packing in ample buffers or, by `with`, others; each promise of it is tested. */
uint32_t pack_list(const struct list *l, struct lending with, struct packed *packed);
void fuzz_lists(struct input *in);

/* building.c */
void fuzz_building(struct input *in);

#endif
