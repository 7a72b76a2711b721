/* The service's calls for C: checking, packing, unpacking and measuring triangle lists, and building them one operation at a time.
 *
 * Each call returns 0 for acceptance or the number of the refusal, 1 to 25:
 *
 *    1  the list is empty, has over 24,576 numbers, or not three for each triangle
 *    2  the number of vertices is below 3 or above 4,096
 *    3  a number of the list is not below the number of vertices
 *    4  a triangle of the list has a vertex twice
 *    5  a directed edge occurs twice
 *    6  a vertex is in no triangle
 *    7  a vertex of the list has more than one fan
 *    8  packing is lent fewer numbering entries than vertices, or fewer than 1,024 place records
 *    9  an operation of the packing would exceed 1,024 places
 *   10  an operation of the packing would exceed 100 live loops
 *   11  the pack buffer is shorter than the pack
 *   12  the bytes are not the fields of a pack, each whole and in order
 *   13  a count is out of its range
 *   14  fewer than three triangle entries for each triangle stated or fewer than 1,024 place records are lent
 *   15  the operations end before the model is complete, or break off
 *   16  an operation is not allowed
 *   17  an operation would exceed a stated count
 *   18  a new edge joins two vertices that are joined already, or a built triangle has a vertex twice
 *   19  vertices or a peak differ from those stated, a whole byte is left over, or a fill bit is one
 *   20  a vertex of the built model has more than one fan
 *   21  a building call is lent shorter buffers than 14 asks, or a state that no building comes to
 *   22  packing is lent fewer order entries than there are triangles
 *   23  the positions are not three for each vertex, or one is not from -2,048 to 2,047
 *   24  there is no volume: the pack has no positions, or the model has a rim
 *   25  the note has no byte or over 64
 *
 * What a caller owes, and all that it owes: each pointer leads to as many entries as are stated, aligned as its type; it is not null, even
 * where no entries are stated; no two buffers overlap, and nobody else writes them meanwhile; and they hold values of their types: the
 * `open` of a place record is 0 or 1, so memory from malloc is cleared first. Whatever the values are, each call ends with an answer.
 *
 * What every call keeps to: it writes to the lent buffers only, and only where its comment says. Nothing is kept between two calls, and no
 * memory is allocated, so calls in several threads do not meet. What is needed besides is on the stack, up to 224 KiB: mind a thread with
 * a small one. Of the C library memcpy and memset are called, and nothing else.
 *
 * How to read the comments. Returns: the refusals in the order in which they are tested. Lent: how long each buffer is to be at least; one
 * that is longer is as it was beyond what is named. Aligned: to so many bytes; what is not named may lie anywhere. Accepted, refused: what
 * the buffers hold afterwards. Stack: below so much on x86-64, with all that is called beneath; measured by tests/c/stack.c.
 *
 * Proved of the functions: crates/capi. Link with target/staticlib/libcapi.a, which `tools/build capi` writes (x86-64). The formats are in
 * docs/FORMAT.md; a first program is examples/ring.c.
 */
#ifndef CUTBORDER_H
#define CUTBORDER_H

#include <stdbool.h>
#include <stddef.h>
#include <stdint.h>

#ifdef __cplusplus
extern "C" {
#endif

/* The limits of the calls: buffers of these lengths are never too short. */
#define CUTBORDER_PLACES 1024      /* place records: so many are asked for */
#define CUTBORDER_LOOPS 100        /* live loops */
#define CUTBORDER_VERTICES 4096    /* vertices of a model, so numbering entries */
#define CUTBORDER_TRIANGLES 8192   /* triangles of a model, so order entries */
#define CUTBORDER_ENTRIES 24576    /* numbers of a list, three for each triangle */
#define CUTBORDER_NOTE_BYTES 64    /* bytes of a note */
#define CUTBORDER_PACK_BYTES 54356 /* bytes of a pack: 29,710 for the model, 6 v + 3 for its positions, 67 for a note */

/* A record of the lent place list. */
struct cutborder_place {
    uint16_t vertex, before, after;
    bool open;
};

/* A builder. Callers keep it between the building calls, and need not look into it. */
struct cutborder_builder {
    uint16_t vertices, triangles, most_places, most_loops; /* as stated */
    uint16_t used, built;                                  /* vertices and triangles so far */
    uint16_t peak_places, peak_loops;
    uint16_t edges, starts, unions, rims;
    uint16_t live; /* loops; the current one is the last */
    uint16_t current[CUTBORDER_LOOPS], sizes[CUTBORDER_LOOPS];
};

/* The operations' codes; split has the index j, union p and j. */
enum {
    CUTBORDER_NEW,
    CUTBORDER_FORWARD,
    CUTBORDER_BACKWARD,
    CUTBORDER_BORDER,
    CUTBORDER_SPLIT,
    CUTBORDER_CLOSE,
    CUTBORDER_UNION,
    CUTBORDER_START
};

/* Checks a list: three vertex numbers for each triangle, of a model of v vertices.
 * Returns   0, or 1 to 7
 * Lent      list: list_entries numbers, which are only read
 * Aligned   to 2: list
 * Accepted  and refused: nothing is written
 * Stack     below 96 KiB */
uint32_t cutborder_check(size_t v, const uint16_t *list, size_t list_entries);

/* Packs a list.
 * Returns   0, or 1 to 8, 22, 9 to 11; between 9 and 10 the first operation at fault decides
 * Lent      list: as for cutborder_check; numbering: v entries; order: one for each triangle; places: 1,024; pack: what the pack takes
 * Aligned   to 2: list, numbering, order, places; to 4: size
 * Accepted  pack: the pack, *size bytes; numbering: for each vertex of the list its number in the pack; order: for each triangle, as the
 *           pack builds them, its number in the list, from 0; the first 1,024 places are zero
 * Refused   1 to 8, 22: all is as it was; 9 to 11: zero are v entries of numbering, one of order for each triangle, 1,024 places and the
 *           whole pack buffer, and *size is as it was
 * Stack     below 112 KiB */
uint32_t cutborder_pack(size_t v, const uint16_t *list, size_t list_entries, uint16_t *numbering, size_t numbering_entries, uint8_t *pack,
                        size_t pack_bytes, uint16_t *order, size_t order_entries, struct cutborder_place *places, size_t records,
                        uint32_t *size);

/* Packs a list with positions: x, y and z of each vertex of the list, from -2,048 to 2,047.
 * Returns   0, or 1 to 8, 22, 23, 9 to 11
 * Lent      positions: 3 v numbers, no more, which are only read; the others as for cutborder_pack
 * Aligned   to 2: list, positions, numbering, order, places; to 4: size
 * Accepted  as cutborder_pack; the pack is that of cutborder_pack and 6 v + 3 bytes more, the positions by the pack's numbers
 * Refused   23: all is as it was; otherwise as cutborder_pack
 * Stack     below 168 KiB */
uint32_t cutborder_pack_positions(size_t v, const uint16_t *list, size_t list_entries, const int16_t *positions, size_t positions_entries,
                                  uint16_t *numbering, size_t numbering_entries, uint8_t *pack, size_t pack_bytes, uint16_t *order,
                                  size_t order_entries, struct cutborder_place *places, size_t records, uint32_t *size);

/* Packs a list with a note for the bench: any bytes.
 * Returns   0, or 1 to 8, 22, 25, 9 to 11
 * Lent      note: 1 to 64 bytes, which are only read; the others as for cutborder_pack
 * Aligned   to 2: list, numbering, order, places; to 4: size
 * Accepted  as cutborder_pack; the pack is that of cutborder_pack and note_bytes + 3 bytes more
 * Refused   25: all is as it was; otherwise as cutborder_pack
 * Stack     below 168 KiB */
uint32_t cutborder_pack_note(size_t v, const uint16_t *list, size_t list_entries, const uint8_t *note, size_t note_bytes,
                             uint16_t *numbering, size_t numbering_entries, uint8_t *pack, size_t pack_bytes, uint16_t *order,
                             size_t order_entries, struct cutborder_place *places, size_t records, uint32_t *size);

/* Packs a list with positions and a note.
 * Returns   0, or 1 to 8, 22, 23, 25, 9 to 11
 * Lent      positions: 3 v numbers, no more; note: 1 to 64 bytes; both are only read; the others as for cutborder_pack
 * Aligned   to 2: list, positions, numbering, order, places; to 4: size
 * Accepted  as cutborder_pack; the pack is that of cutborder_pack_positions and note_bytes + 3 bytes more
 * Refused   23, 25: all is as it was; otherwise as cutborder_pack
 * Stack     below 224 KiB */
uint32_t cutborder_pack_positions_note(size_t v, const uint16_t *list, size_t list_entries, const int16_t *positions,
                                       size_t positions_entries, const uint8_t *note, size_t note_bytes, uint16_t *numbering,
                                       size_t numbering_entries, uint8_t *pack, size_t pack_bytes, uint16_t *order, size_t order_entries,
                                       struct cutborder_place *places, size_t records, uint32_t *size);

/* Unpacks any bytes. Positions and a note are tested and not told.
 * Returns   0, or 12 to 20, 23, 25; among 15 to 18 the first operation at fault decides, at one operation the lower number
 * Lent      pack: pack_bytes bytes, which are only read; triangles: three entries for each triangle that the pack states; places: 1,024
 * Aligned   to 2: triangles, places, model; to 4: euler
 * Accepted  triangles: three vertex numbers for each; model: how many vertices, triangles, edges, rims and unions; *euler: the Euler
 *           number; the first 1,024 places are zero
 * Refused   12 to 14: all is as it was; 15 to 20, 23, 25: zero are three entries of triangles for each triangle stated and 1,024 places,
 *           and model and *euler are as they were
 * Stack     below 112 KiB */
uint32_t cutborder_unpack(const uint8_t *pack, size_t pack_bytes, uint16_t *triangles, size_t triangles_entries,
                          struct cutborder_place *places, size_t records, uint16_t model[5], int32_t *euler);

/* Unpacks, and tells six times the volume that the model encloses: exactly, with right-handed axes positive where its triangles turn
 * counter-clockwise as seen from outside; the model turned inside out, if it is accepted too, has the other sign.
 * Returns   0, or 12 to 20, 23, 25, 24
 * Lent      as for cutborder_unpack
 * Aligned   to 2: triangles, places, model; to 4: euler; to 8: six
 * Accepted  as cutborder_unpack, and *six
 * Refused   24: as 20; otherwise as cutborder_unpack; *six is as it was
 * Stack     below 112 KiB */
uint32_t cutborder_volume(const uint8_t *pack, size_t pack_bytes, uint16_t *triangles, size_t triangles_entries,
                          struct cutborder_place *places, size_t records, uint16_t model[5], int32_t *euler, int64_t *six);

/* The bench reader: unpacks, and tells where the note stands in the pack: *length bytes, from pack[*start] on. No other call takes notice
 * of a note of 1 to 64 bytes.
 * Returns   0, or 12 to 20, 23, 25
 * Lent      as for cutborder_unpack
 * Aligned   to 2: triangles, places, model; to 4: euler; to 8: start, length
 * Accepted  as cutborder_unpack, and *start and *length, both 0 if there is no note
 * Refused   as cutborder_unpack, but *start and *length are 0
 * Stack     below 112 KiB */
uint32_t cutborder_bench(const uint8_t *pack, size_t pack_bytes, uint16_t *triangles, size_t triangles_entries,
                         struct cutborder_place *places, size_t records, uint16_t model[5], int32_t *euler, size_t *start, size_t *length);

/* Begins a model of v vertices and t triangles, of at most so many places and live loops after any operation, as a pack states them.
 * Returns   0, or 13, 14; a count above 65,535 is 13 too
 * Lent      triangles: 3 t entries; places: 1,024; both are lent to the operations of this model too
 * Aligned   to 2: triangles, places, state
 * Accepted  *state: a builder of these counts that holds nothing; the first 1,024 places are zero; triangles is as it was
 * Refused   all is as it was
 * Stack     below 1 KiB */
uint32_t cutborder_begin(uint32_t v, uint32_t t, uint32_t most_places, uint32_t most_loops, uint16_t *triangles, size_t triangles_entries,
                         struct cutborder_place *places, size_t records, struct cutborder_builder *state);

/* Does an operation, CUTBORDER_NEW to CUTBORDER_START. Its indices are p and j, of a split j alone; otherwise they are not looked at.
 * Returns   0, or 21, 16 to 18; a code above 7 is 16, and so is an index of the operation above 65,535
 * Lent      state, triangles, places: as cutborder_begin or the last operation left them; what no building comes to is 21
 * Aligned   to 2: state, triangles, places, built
 * Accepted  *state: the builder after it; built: 1 and the triangle, which is the next one in triangles too, or four zeros where an edge
 *           was marked as border; places: one that stays keeps its record and its vertex, one that leaves is zero, a new one takes a
 *           record that was none, which of them is free; all other records are as they were
 * Refused   all is as it was
 * Stack     below 16 KiB */
uint32_t cutborder_operation(struct cutborder_builder *state, uint32_t code, uint32_t p, uint32_t j, uint16_t *triangles,
                             size_t triangles_entries, struct cutborder_place *places, size_t records, uint16_t built[4]);

/* Finishes a model: tells whether it is complete and as stated.
 * Returns   0, or 21, 15, 19, 20
 * Lent      state, triangles, places: as for cutborder_operation, but only read, so that a model that is refused here can be built on
 * Aligned   to 2: state, triangles, places, totals; to 4: euler
 * Accepted  totals: how many edges, rims and unions; *euler: the Euler number
 * Refused   all is as it was
 * Stack     below 136 KiB */
uint32_t cutborder_finish(const struct cutborder_builder *state, const uint16_t *triangles, size_t triangles_entries,
                          const struct cutborder_place *places, size_t records, uint16_t totals[3], int32_t *euler);

#ifdef __cplusplus
}
#endif

/* The layout that the library is compiled for: a compiler that lays the records out otherwise stops here. */
#if defined(__cplusplus) && __cplusplus >= 201103L
#define CUTBORDER_LAYOUT(what) static_assert(what, #what)
#define CUTBORDER_ALIGNMENT(type) alignof(type)
#elif defined(__STDC_VERSION__) && __STDC_VERSION__ >= 201112L
#define CUTBORDER_LAYOUT(what) _Static_assert(what, #what)
#define CUTBORDER_ALIGNMENT(type) _Alignof(type)
#endif
#ifdef CUTBORDER_LAYOUT
#define CUTBORDER_PLACE_AT(offset, field) CUTBORDER_LAYOUT(offsetof(struct cutborder_place, field) == offset)
#define CUTBORDER_BUILDER_AT(offset, field) CUTBORDER_LAYOUT(offsetof(struct cutborder_builder, field) == offset)
CUTBORDER_LAYOUT(sizeof(bool) == 1 && sizeof(size_t) == 8);
CUTBORDER_LAYOUT(sizeof(struct cutborder_place) == 8 && CUTBORDER_ALIGNMENT(struct cutborder_place) == 2);
CUTBORDER_PLACE_AT(0, vertex);
CUTBORDER_PLACE_AT(2, before);
CUTBORDER_PLACE_AT(4, after);
CUTBORDER_PLACE_AT(6, open);
CUTBORDER_LAYOUT(sizeof(struct cutborder_builder) == 426 && CUTBORDER_ALIGNMENT(struct cutborder_builder) == 2);
CUTBORDER_BUILDER_AT(0, vertices);
CUTBORDER_BUILDER_AT(2, triangles);
CUTBORDER_BUILDER_AT(4, most_places);
CUTBORDER_BUILDER_AT(6, most_loops);
CUTBORDER_BUILDER_AT(8, used);
CUTBORDER_BUILDER_AT(10, built);
CUTBORDER_BUILDER_AT(12, peak_places);
CUTBORDER_BUILDER_AT(14, peak_loops);
CUTBORDER_BUILDER_AT(16, edges);
CUTBORDER_BUILDER_AT(18, starts);
CUTBORDER_BUILDER_AT(20, unions);
CUTBORDER_BUILDER_AT(22, rims);
CUTBORDER_BUILDER_AT(24, live);
CUTBORDER_BUILDER_AT(26, current);
CUTBORDER_BUILDER_AT(226, sizes);
#undef CUTBORDER_BUILDER_AT
#undef CUTBORDER_PLACE_AT
#undef CUTBORDER_ALIGNMENT
#undef CUTBORDER_LAYOUT
#endif

#endif
