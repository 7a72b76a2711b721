/* Memory for one call at a time, guarded on both sides. */
#define _GNU_SOURCE
#include "fuzz.h"
#include <sys/mman.h>
#include <unistd.h>

enum { ROOMS = 16, MOST = 1 << 17, BESIDE = 64, NOISE = 251 };

static struct {
    uint8_t *area; /* MOST bytes between two inaccessible pages */
    struct room lent;
    uint8_t copy[MOST];
} rooms[ROOMS];

static unsigned used, where_now;
static uint8_t noise[MOST + 256];

static void prepare(void)
{
    size_t page = (size_t)sysconf(_SC_PAGESIZE);
    for (size_t i = 0; i < sizeof noise; i++)
        noise[i] = (uint8_t)(1 + i * i % NOISE + i / NOISE);
    for (unsigned i = 0; i < ROOMS; i++) {
        uint8_t *all = mmap(NULL, MOST + 2 * page, PROT_NONE, MAP_PRIVATE | MAP_ANONYMOUS, -1, 0);
        MUST(all != MAP_FAILED && mprotect(all + page, MOST, PROT_READ | PROT_WRITE) == 0, "no memory for the test itself");
        rooms[i].area = all + page;
    }
}

void rooms_open(unsigned where)
{
    if (!rooms[0].area)
        prepare();
    used = 0;
    where_now = where % 3;
}

/* The bytes beside a room, towards the page that it does not touch. */
static uint8_t *beside(struct room r)
{
    return where_now == AGAINST_NEXT ? r.at - BESIDE : r.at + r.bytes;
}

void rooms_close(void)
{
    for (unsigned i = 0; i < used; i++) {
        struct room r = rooms[i].lent;
        if (where_now == ON_HEAP)
            free(r.at);
        else
            MUST(memcmp(beside(r), noise, BESIDE) == 0, "written beside room %u of %zu bytes", i, r.bytes);
    }
    used = 0;
}

struct room lend_bytes(const void *contents, size_t bytes)
{
    MUST(used < ROOMS && bytes + BESIDE <= MOST, "the test asks for %zu bytes", bytes);
    uint8_t *area = rooms[used].area, *at;
    if (where_now == ON_HEAP)
        at = malloc(bytes);
    else
        at = where_now == AGAINST_NEXT ? area + MOST - bytes : area;
    MUST(at != NULL, "no memory for the test itself");
    struct room r = {at, rooms[used].copy, bytes};
    if (bytes > 0) {
        memcpy(at, contents, bytes);
        memcpy(rooms[used].copy, contents, bytes);
    }
    if (where_now != ON_HEAP)
        memcpy(beside(r), noise, BESIDE);
    rooms[used++].lent = r;
    return r;
}

struct room lend_any(size_t bytes, uint8_t filler)
{
    return lend_bytes(noise + filler, bytes);
}

struct room lend_places(size_t records, uint8_t filler)
{
    static struct cutborder_place some[MOST / sizeof(struct cutborder_place)];
    memcpy(some, noise + filler, records * sizeof *some);
    for (size_t i = 0; i < records; i++)
        *(uint8_t *)&some[i].open = (i + filler) % 3 != 0;
    return lend_bytes(some, records * sizeof *some);
}

void forget(struct room r)
{
    memcpy((uint8_t *)r.before, r.at, r.bytes);
}

bool is_same_from(struct room r, size_t from)
{
    return from >= r.bytes || memcmp(r.at + from, r.before + from, r.bytes - from) == 0;
}

bool is_zero(struct room r, size_t bytes)
{
    return bytes == 0 || (r.at[0] == 0 && memcmp(r.at, r.at + 1, bytes - 1) == 0);
}

/* A record as a number, without its last byte, which is none of its values. */
static uint64_t record(const uint8_t *at, size_t i)
{
    uint64_t x;
    memcpy(&x, at + 8 * i, sizeof x);
    return x & 0x00ffffffffffffff;
}

bool places_same_from(struct room r, size_t from)
{
    bool same = true;
    for (size_t i = from; i < r.bytes / 8; i++)
        same &= record(r.at, i) == record(r.before, i);
    return same;
}

bool places_zero(struct room r)
{
    uint64_t all = 0;
    for (size_t i = 0; i < CUTBORDER_PLACES; i++)
        all |= record(r.at, i);
    return all == 0;
}
