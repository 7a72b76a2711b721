/* The furnace's own reader for C: six times the volume that a pack's model encloses, on a part with 2 KB of memory of its own.
 *
 * furnace_read returns 0 and writes the volume to *six, or returns the number of the refusal and leaves *six as it was. The tests stand in
 * this order:
 *
 *   12  the bytes are not the fields of a pack, each whole and in order
 *   13  a count is out of its range
 *   26  over 200 places or over 12 loops are stated
 *   15  the operations end before the model is complete, or break off
 *   16  an operation is not allowed
 *   17  an operation would exceed a stated count
 *   19  vertices or a peak differ from those stated, a whole byte is left over, or a fill bit is one
 *   23  the positions are not three for each vertex, or one is not from -2,048 to 2,047
 *   25  the note has no byte or over 64
 *   24  there is no volume: the pack has no positions, or the model has a rim
 *
 * It trusts the service's check for two rules, 18 and 20 of cutborder.h: a pack that the service would refuse for one of them may get a
 * volume here, or another refusal. On a pack that the service measures the volume is the service's, or the answer 26.
 *
 * What a caller owes, and all that it owes: pack leads to pack_bytes bytes, memory to 1,024 and six to one number, aligned as its type;
 * none of them is null, even where there are no bytes; no two of them overlap, and nobody else writes them meanwhile. Whatever the bytes
 * are, the call ends with one of these answers. Nothing is kept between two calls, and no memory is allocated.
 *
 * Proved of the function: crates/furnace. Link with target/staticlib/libfurnace.a, which `tools/build furnace` writes (x86-64), or with
 * the object that tests/avr/build writes (AVR). A main loop around it is examples/furnace_main.c.
 */
#ifndef FURNACE_H
#define FURNACE_H

#include <stdint.h>

#ifdef __cplusplus
extern "C" {
#endif

#define FURNACE_MEMORY 1024 /* bytes to lend */
#define FURNACE_PLACES 200  /* what a pack may state without 26 */
#define FURNACE_LOOPS 12

/* Reads any bytes as a pack, where they lie. The length has 64 bits on every machine.
 * Returns   0, or 12, 13, 26, 15 to 17, 19, 23, 25, 24; among 15 to 17 the first operation at fault decides
 * Lent      pack: pack_bytes bytes, which are only read; memory: 1,024 bytes, which may hold anything
 * Aligned   to 8: six (on AVR anywhere)
 * Accepted  *six: six times the volume; what memory holds means nothing, and it is free until the next call
 * Refused   *six is as it was; memory as if accepted
 * Stack     below 1 KiB; below 700 bytes on AVR, where tests/avr/run measures it, the flash and the cycles */
uint8_t furnace_read(const uint8_t *pack, uint64_t pack_bytes, uint8_t memory[FURNACE_MEMORY], int64_t *six);

#ifdef __cplusplus
}
#endif

#endif
