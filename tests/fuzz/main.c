/* The fuzzer: any bytes as input for the functions of cutborder.h, cutborder_search.h and furnace.h. The first byte picks packs, lists or
 * building; each promise of the headers that can be told without a second implementation is tested at each call. */
#include "fuzz.h"

int LLVMFuzzerInitialize(int *argc, char ***argv);
int LLVMFuzzerTestOneInput(const uint8_t *data, size_t size);

enum { ANSWERS = 27 };

static uint64_t tally[CALLS][ANSWERS];

static const struct {
    const char *name;
    uint32_t can; /* a bit for each answer */
} calls[CALLS] = {
    [CHECK] = {"cutborder_check", 0xff},
    [PACK] = {"cutborder_pack", 0xfff | 1u << 22},
    [PACK_POSITIONS] = {"cutborder_pack_positions", 0xfff | 1u << 22 | 1u << 23},
    [PACK_NOTE] = {"cutborder_pack_note", 0xfff | 1u << 22 | 1u << 25},
    [PACK_POSITIONS_NOTE] = {"cutborder_pack_positions_note", 0xfff | 1u << 22 | 1u << 23 | 1u << 25},
    [UNPACK] = {"cutborder_unpack", 0x1ff001 | 1u << 23 | 1u << 25},
    [VOLUME] = {"cutborder_volume", 0x1ff001 | 7u << 23},
    [BENCH] = {"cutborder_bench", 0x1ff001 | 1u << 23 | 1u << 25},
    [BEGIN] = {"cutborder_begin", 1 | 1u << 13 | 1u << 14},
    [OPERATION] = {"cutborder_operation", 1 | 7u << 16 | 1u << 21},
    [FINISH] = {"cutborder_finish", 1 | 1u << 15 | 1u << 19 | 1u << 20 | 1u << 21},
    [LINK] = {"cutborder_link", 0x1f},
    [SEARCH] = {"cutborder_search", 3},
    [MELT] = {"furnace_read", 1 | 3u << 12 | 7u << 15 | 1u << 19 | 15u << 23},
};

uint32_t answered(enum call call, uint32_t n)
{
    MUST(n < ANSWERS && calls[call].can >> n & 1, "%s answers %u", calls[call].name, n);
    tally[call][n]++;
    return n;
}

/* What each function answered how often, and what it never did. */
static void told(void)
{
    for (unsigned c = 0; c < CALLS; c++) {
        printf("%s:", calls[c].name);
        for (unsigned n = 0; n < ANSWERS; n++)
            if (calls[c].can >> n & 1)
                printf(tally[c][n] ? " %u: %llu" : " %u: never", n, (unsigned long long)tally[c][n]);
        printf("\n");
    }
}

size_t about(size_t needed, uint8_t knob)
{
    if (knob < 200)
        return needed;
    switch (knob % 8) {
    case 0: return 0;
    case 1: return needed > 0 ? needed - 1 : 0;
    case 2: return needed + 1;
    case 3: return needed / 2;
    case 4: return needed > 3 ? needed - 3 : 0;
    case 5: return needed + 3;
    case 6: return needed + knob;
    default: return needed % (knob + 1u);
    }
}

int LLVMFuzzerInitialize(int *argc, char ***argv)
{
    (void)argc, (void)argv;
    return atexit(told);
}

int LLVMFuzzerTestOneInput(const uint8_t *data, size_t size)
{
    struct input in = {data, size};
    switch (byte_of(&in) % 3) {
    case 0: fuzz_packs(&in); break;
    case 1: fuzz_lists(&in); break;
    default: fuzz_building(&in); break;
    }
    return 0;
}
