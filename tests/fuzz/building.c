/* Building: a run of operations by the input, in a builder that was begun, was never begun, or is damaged on the way. What an undamaged
 * run built is built again with the counts that it came to, and its operations are read as a pack. */
#include "fuzz.h"

enum { STEPS_MOST = 150, OPS_MOST = 4000, BUILDER = sizeof(struct cutborder_builder) };

struct op {
    uint32_t code, p, j;
};

/* An operation that 16 to 18 refused after so many others, with these counts stated; no answer if there was none. */
struct refusal {
    struct op op;
    size_t after;
    uint32_t counts[4], answer;
};

static struct run {
    struct room state, triangles, places, built, totals, euler;
    struct op ops[OPS_MOST + 1]; /* those accepted */
    size_t accepted;
    struct refusal last; /* before any damage */
    bool damaged; /* its state need not be one that building comes to */
    unsigned unsound; /* how often 21 was answered */
} run;

static struct cutborder_builder *state(void) { return (struct cutborder_builder *)run.state.at; }
static uint16_t *triangles(void) { return (uint16_t *)run.triangles.at; }
static struct cutborder_place *places(void) { return (struct cutborder_place *)run.places.at; }
static bool is_unchanged(void) { return is_same(run.state) && is_same(run.triangles) && places_same(run.places); }

static void remember(void)
{
    forget(run.state), forget(run.triangles), forget(run.places);
}

static void lend(struct lending with, size_t t)
{
    rooms_open(with.where);
    run.state = lend_any(BUILDER, with.filler);
    run.triangles = lend_any(2 * about(3 * (t <= CUTBORDER_TRIANGLES ? t : 5), with.entries), with.filler);
    run.places = lend_places(about(CUTBORDER_PLACES, with.records), with.filler);
    run.built = lend_any(8, with.filler);
    run.totals = lend_any(6, with.filler);
    run.euler = lend_any(4, with.filler);
    run.accepted = 0;
    run.damaged = false;
    run.last.answer = 0;
    run.unsound = 0;
}

/* A beginning: 13 and 14 by what is stated and lent. */
static uint32_t begin(const uint32_t counts[4])
{
    uint32_t n = cutborder_begin(counts[0], counts[1], counts[2], counts[3], triangles(), run.triangles.bytes / 2, places(),
                                 run.places.bytes / 8, state());
    bool ranges = in_range(counts), ample = ranges && run.triangles.bytes / 6 >= counts[1] && run.places.bytes / 8 >= CUTBORDER_PLACES;
    answered(BEGIN, n);
    MUST(n == (ranges ? ample ? 0 : 14 : 13), "a beginning answers %u", n);
    MUST(is_same(run.triangles), "a beginning wrote triangles");
    if (n != 0) {
        MUST(is_unchanged(), "%u changed something", n);
        return n;
    }
    MUST(places_zero(run.places) && places_same_from(run.places, CUTBORDER_PLACES), "place records after a beginning");
    const struct cutborder_builder *s = state();
    MUST(s->vertices == counts[0] && s->triangles == counts[1] && s->most_places == counts[2] && s->most_loops == counts[3], "counts");
    bool holds = s->used || s->built || s->live || s->edges || s->rims || s->unions || s->starts || s->peak_places || s->peak_loops;
    MUST(!holds, "a builder that holds something");
    return 0;
}

/* What an accepted operation leaves: a triangle more, or none at border. */
static void operated(const struct cutborder_builder *before, struct op o)
{
    const struct cutborder_builder *s = state();
    const uint16_t *told = (const uint16_t *)run.built.at;
    size_t at = 3 * (size_t)before->built;
    MUST(places_same_from(run.places, CUTBORDER_PLACES), "place records beyond");
    if (o.code == CUTBORDER_BORDER) {
        MUST(is_zero(run.built, 8) && is_same(run.triangles) && s->built == before->built, "border built something");
    } else {
        MUST(told[0] == 1 && memcmp(told + 1, triangles() + at, 6) == 0 && s->built == before->built + 1, "the triangle built");
        memcpy(triangles() + at, run.triangles.before + 2 * at, 6);
        MUST(is_same(run.triangles), "another triangle was changed");
        memcpy(triangles() + at, told + 1, 6);
    }
    if (run.damaged)
        return;
    unsigned sum = 0;
    for (unsigned i = 0; i < s->live; i++)
        sum += s->sizes[i];
    MUST(s->used <= s->vertices && s->built <= s->triangles && s->live <= s->peak_loops && s->peak_loops <= s->most_loops, "counts");
    MUST(sum <= s->peak_places && s->peak_places <= s->most_places, "places");
}

static bool is_complete(void)
{
    return state()->live == 0 && state()->built == state()->triangles;
}

static uint32_t operate(struct op o)
{
    struct cutborder_builder before;
    memcpy(&before, run.state.at, BUILDER);
    memset(run.built.at, 0x5a, 8);
    remember(), forget(run.built);
    uint32_t n = cutborder_operation(state(), o.code, o.p, o.j, triangles(), run.triangles.bytes / 2, places(), run.places.bytes / 8,
                                     (uint16_t *)run.built.at);
    answered(OPERATION, n);
    MUST(run.damaged || n != 21, "21 for a state that building came to");
    run.unsound += n == 21;
    MUST(n == 0 || (is_unchanged() && is_same(run.built)), "%u changed something", n);
    MUST(n != 0 || o.code <= CUTBORDER_START, "operation %u is accepted", o.code);
    if (n != 0 && !run.damaged && !is_complete())
        run.last = (struct refusal){o, run.accepted, {before.vertices, before.triangles, before.most_places, before.most_loops}, n};
    if (n == 0) {
        operated(&before, o);
        MUST(run.accepted < OPS_MOST, "the test keeps %d operations", OPS_MOST);
        run.ops[run.accepted++] = o;
    }
    return n;
}

/* A finish; what it told stands in the memory for it. */
static uint32_t finish(void)
{
    remember(), forget(run.totals), forget(run.euler);
    uint32_t n = cutborder_finish(state(), triangles(), run.triangles.bytes / 2, places(), run.places.bytes / 8, (uint16_t *)run.totals.at,
                                  (int32_t *)run.euler.at);
    answered(FINISH, n);
    MUST(is_unchanged(), "a finish changed something");
    MUST(n == 0 || (is_same(run.totals) && is_same(run.euler)), "%u changed the memory for results", n);
    MUST(run.damaged || n != 21, "21 for a state that building came to");
    return n;
}

/* Any number, or one at a limit. */
static uint16_t any_number(struct input *in)
{
    static const uint16_t limits[] = {0, 1, 2, 3, 99, 100, 101, 1023, 1024, 1025, 4095, 4096, 4097, 8192, 8193, 24576, 24577, 65535};
    uint16_t value = two_of(in);
    return value < 0x8000 ? value : limits[value % (sizeof limits / sizeof *limits)];
}

/* A number of 32 bits, mostly small. */
static uint32_t wide_number(struct input *in)
{
    uint8_t b = byte_of(in);
    return b < 0xc0 ? b % 12 : (uint32_t)(b & 15) << 16 | b % 4;
}

/* Any change of the builder, a place or a triangle; `open` stays 0 or 1. */
static void damage(struct input *in)
{
    uint16_t at = two_of(in), value = any_number(in);
    struct cutborder_place *p = places() + at % CUTBORDER_PLACES;
    run.damaged = true;
    switch (byte_of(in) % 6) {
    case 0: memcpy(run.state.at + 2 * (at % 13), &value, 2); break;
    case 1: memcpy(run.state.at + 2 * (at % (BUILDER / 2)), &value, 2); break;
    case 2:
        if (run.triangles.bytes > 0)
            memcpy(run.triangles.at + 2 * (at % (run.triangles.bytes / 2)), &value, 2);
        break;
    default:
        if (run.places.bytes < CUTBORDER_PLACES * sizeof *p)
            break;
        if (value & 0x1000)
            p->open = value & 1;
        else
            memcpy((uint8_t *)p + 2 * (at / CUTBORDER_PLACES % 3), &value, 2);
    }
}

/* One step: mostly an operation, with indices of one byte or two; else one that is none, or damage, or a finish. */
static void step(struct input *in)
{
    uint8_t b = byte_of(in);
    struct op o = {b % 8, 0, 0};
    if (b == 0xff) {
        damage(in);
    } else if (b == 0xfe) {
        o.code = wide_number(in), o.p = wide_number(in), o.j = wide_number(in);
        operate(o);
    } else if (b == 0xfd) {
        finish();
    } else {
        if (o.code == CUTBORDER_UNION)
            o.p = byte_of(in);
        if (o.code >= CUTBORDER_SPLIT && o.code % 2 == 0)
            o.j = b & 0x80 ? two_of(in) : byte_of(in);
        operate(o);
    }
}

/* The operations' bits, the high ones first. */
static size_t put(uint8_t *to, size_t at, uint32_t x, unsigned bits)
{
    for (unsigned i = bits; i-- > 0; at++)
        to[at / 8] = (uint8_t)(to[at / 8] | (x >> i & 1) << (7 - at % 8));
    return at;
}

static size_t put_two(uint8_t *to, size_t at, uint32_t x)
{
    to[at] = (uint8_t)(x >> 8), to[at + 1] = (uint8_t)x;
    return at + 2;
}

static size_t put_operations(uint8_t *to, size_t at, const struct op *ops, size_t n)
{
    size_t bit = 8 * at;
    for (size_t i = 0; i < n; i++) {
        bit = put(to, bit, ops[i].code, 3);
        if (ops[i].code == CUTBORDER_UNION)
            bit = put(to, bit, ops[i].p, 7);
        if (ops[i].code == CUTBORDER_UNION || ops[i].code == CUTBORDER_SPLIT)
            bit = put(to, bit, ops[i].j, 10);
    }
    return (bit + 7) / 8;
}

/* What goes into a pack besides, by a byte of the input: positions, a note, and whether the first of them is unfit. */
struct besides {
    bool positions, note;
    uint32_t refusal; /* 23, 25 or none */
    uint8_t any;
};

static struct besides besides_of(uint8_t given)
{
    struct besides b = {given & 1, given & 2, 0, given};
    if (given >= 192)
        b.refusal = b.positions ? 23 : b.note ? 25 : 0;
    return b;
}

/* The pack of these operations. */
static size_t pack_of(uint8_t *to, const uint32_t counts[4], const struct op *ops, size_t n, struct besides b)
{
    memset(to, 0, 1 << 16);
    size_t at = put_two(to, 1, 8);
    to[0] = 1;
    for (unsigned i = 0; i < 4; i++)
        at = put_two(to, at, counts[i]);
    size_t end = put_operations(to, at + 3, ops, n);
    to[at] = 2, put_two(to, at + 1, (uint32_t)(end - at - 3));
    if (b.positions) {
        to[end] = 3;
        end = put_two(to, end + 1, 6 * counts[0]);
        for (uint32_t i = 0; i < 3 * counts[0]; i++)
            end = put_two(to, end, ((i * i + b.any) * 2654435761u >> 16 & 0xfff) - 2048 + (b.refusal == 23) * 4096);
    }
    if (b.note) {
        size_t bytes = b.refusal == 25 ? 65 : 1 + b.any % 64;
        to[end] = 4;
        end = put_two(to, end + 1, (uint32_t)bytes);
        memset(to + end, b.any, bytes);
        end += bytes;
    }
    return end;
}

/* Unpacking refuses what was refused after these operations, with the same number; if its indices have the pack's bits. */
static void refused_alike(const struct refusal *r, struct lending with)
{
    static uint8_t pack[1 << 16];
    static struct model model;
    if (r->answer == 0 || r->op.code > CUTBORDER_START || r->op.p > 127 || r->op.j > 1023)
        return;
    run.ops[r->after] = r->op;
    size_t bytes = pack_of(pack, r->counts, run.ops, r->after + 1, besides_of(0));
    with.entries = with.records = 0;
    uint32_t answer = read_pack(pack, bytes, with, &model);
    MUST(answer == r->answer, "operation %u is refused with %u, by unpacking with %u", r->op.code, r->answer, answer);
}

/* The run once more with the counts that it came to: each operation is accepted again, and unpacking answers what the finish does. Where
 * that is 15, fill bits may be read as one more operation, which is refused. */
static void again(struct lending with, struct besides besides)
{
    static struct op ops[OPS_MOST];
    static uint8_t pack[1 << 16];
    static struct model model;
    static uint16_t built[CUTBORDER_ENTRIES];
    const struct cutborder_builder *s = state();
    uint32_t counts[4] = {s->used, s->built, s->peak_places, s->peak_loops};
    size_t n = run.accepted;
    uint16_t told[3];
    int32_t euler;
    memcpy(ops, run.ops, n * sizeof *ops);
    rooms_close();
    with.entries = with.records = 0;
    lend(with, counts[1]);
    MUST(begin(counts) == 0, "a beginning with what was built");
    for (size_t i = 0; i < n; i++)
        MUST(operate(ops[i]) == 0, "operation %zu the second time", i);
    uint32_t finished = finish();
    memcpy(built, triangles(), 6 * (size_t)counts[1]);
    memcpy(told, run.totals.at, sizeof told), memcpy(&euler, run.euler.at, sizeof euler);
    rooms_close();
    uint32_t answer = read_pack(pack, pack_of(pack, counts, ops, n, besides), with, &model);
    if (finished == 0)
        finished = besides.refusal;
    MUST(answer == finished || (finished == 15 && answer > 15 && answer < 19), "the finish answers %u, unpacking %u", finished, answer);
    if (answer != 0)
        return;
    MUST(memcmp(built, model.triangles, 6 * (size_t)counts[1]) == 0, "unpacking builds others");
    MUST(told[0] == model.edges && told[1] == model.rims && told[2] == model.unions && euler == model.euler, "totals");
}

void fuzz_building(struct input *in)
{
    struct lending with = {byte_of(in), byte_of(in), byte_of(in), byte_of(in), byte_of(in)};
    uint8_t kind = byte_of(in), given = byte_of(in);
    uint32_t counts[4] = {CUTBORDER_VERTICES, CUTBORDER_TRIANGLES, CUTBORDER_PLACES, CUTBORDER_LOOPS};
    if (kind & 1)
        for (unsigned i = 0; i < 4; i++)
            counts[i] = (uint32_t)two_of(in) << (kind >= 250 ? 16 : 0);
    else
        counts[1] = 1 + 4 * (uint32_t)with.more;
    lend(with, counts[1]);
    if (kind % 16 == 14) {
        memset(run.state.at, 0, BUILDER);
        memcpy(run.state.at, in->at, in->left < BUILDER ? in->left : BUILDER);
        run.damaged = true;
    } else if (begin(counts) != 0) {
        run.damaged = true;
    }
    for (unsigned i = 0; in->left > 0 && i < STEPS_MOST && run.unsound < 4; i++)
        step(in);
    while (!run.damaged && given & 4 && state()->live > 0)
        MUST(operate((struct op){CUTBORDER_BORDER, 0, 0}) == 0, "a border where a loop is live");
    finish();
    struct refusal last = run.last;
    bool sound = !run.damaged;
    if (sound && run.accepted > 0)
        again(with, besides_of(given));
    rooms_close();
    if (sound)
        refused_alike(&last, with);
}
