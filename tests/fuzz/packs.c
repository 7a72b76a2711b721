/* Any bytes read as a pack: by unpacking, the volume call, the bench reader and the furnace's own reader. */
#include "fuzz.h"

/* The contents of a field; null if there is none. */
struct part {
    const uint8_t *at;
    size_t bytes;
};

struct fields {
    uint32_t counts[4]; /* vertices, triangles, places, loops */
    struct part ops, positions, note;
};

/* The next field, if it has this tag and is whole. */
static bool next_field(struct input *in, uint8_t tag, struct part *p)
{
    if (in->left < 3 || in->at[0] != tag)
        return false;
    size_t bytes = (size_t)in->at[1] << 8 | in->at[2];
    if (in->left < 3 + bytes)
        return false;
    *p = (struct part){in->at + 3, bytes};
    in->at += 3 + bytes;
    in->left -= 3 + bytes;
    return true;
}

static uint32_t number(const uint8_t *at) { return (uint32_t)at[0] << 8 | at[1]; }

/* The fields of a pack, by docs/FORMAT.md; false is 12. */
static bool split(const uint8_t *pack, size_t bytes, struct fields *f)
{
    struct input in = {pack, bytes};
    struct part counts;
    *f = (struct fields){0};
    if (!next_field(&in, 1, &counts) || counts.bytes != 8 || !next_field(&in, 2, &f->ops))
        return false;
    next_field(&in, 3, &f->positions);
    next_field(&in, 4, &f->note);
    for (unsigned i = 0; i < 4; i++)
        f->counts[i] = number(counts.at + 2 * i);
    return in.left == 0;
}

bool in_range(const uint32_t counts[4])
{
    static const uint32_t least[4] = {3, 1, 3, 1};
    static const uint32_t most[4] = {CUTBORDER_VERTICES, CUTBORDER_TRIANGLES, CUTBORDER_PLACES, CUTBORDER_LOOPS};
    for (unsigned i = 0; i < 4; i++)
        if (counts[i] < least[i] || counts[i] > most[i])
            return false;
    return true;
}

static int32_t position(const struct fields *f, size_t i)
{
    return (int16_t)number(f->positions.at + 2 * i);
}

static bool positions_fit(const struct fields *f)
{
    if (f->positions.bytes != 6 * (size_t)f->counts[0])
        return false;
    for (size_t i = 0; i < 3 * (size_t)f->counts[0]; i++)
        if (position(f, i) < -2048 || position(f, i) > 2047)
            return false;
    return true;
}

/* What one call answered and left. */
struct reading {
    uint32_t answer;
    int64_t six;
    size_t start, length;
    struct model model;
};

/* All that a pack's reading needs. */
struct question {
    const uint8_t *pack;
    size_t bytes;
    bool is_whole;
    struct fields fields;
    size_t entries, records;
    struct lending with;
};

/* What 12 to 14 leave, and the others; the results of a refusal are as they were. */
static void left_as_promised(const struct question *q, uint32_t n, struct room triangles, struct room places)
{
    const struct fields *f = &q->fields;
    bool early = !q->is_whole || !in_range(f->counts) || q->entries < 3 * (size_t)f->counts[1] || q->records < CUTBORDER_PLACES;
    uint32_t first = !q->is_whole ? 12 : !in_range(f->counts) ? 13 : 14;
    MUST(early ? n == first : n == 0 || n > 14, "answer %u, by the fields %u", n, early ? first : 0);
    if (early) {
        MUST(is_same(triangles) && places_same(places), "%u changed a buffer", n);
        return;
    }
    MUST(places_zero(places) && places_same_from(places, CUTBORDER_PLACES), "place records after %u", n);
    MUST(is_same_from(triangles, 6 * (size_t)f->counts[1]), "triangle entries beyond, after %u", n);
    MUST(n == 0 || is_zero(triangles, 6 * (size_t)f->counts[1]), "triangle entries after %u", n);
}

/* What is told of an accepted model. */
static void keep(const struct question *q, struct reading *r, const uint16_t told[5], int32_t euler, struct room triangles)
{
    struct model *m = &r->model;
    m->v = told[0], m->t = told[1], m->edges = told[2], m->rims = told[3], m->unions = told[4], m->euler = euler;
    MUST(m->v == q->fields.counts[0] && m->t == q->fields.counts[1], "counts of the model: %u %u", m->v, m->t);
    MUST(m->euler == (int32_t)(m->v - m->edges + m->t), "Euler number %d", m->euler);
    memcpy(m->triangles, triangles.at, 6 * (size_t)m->t);
}

static void read_by(enum call call, const struct question *q, struct reading *r)
{
    uint8_t x = q->with.filler;
    rooms_open(q->with.where);
    struct room pack = lend_bytes(q->pack, q->bytes), triangles = lend_any(2 * q->entries, x), places = lend_places(q->records, x);
    struct room told = lend_any(10, x), euler = lend_any(4, x), six = lend_any(8, x), start = lend_any(8, x), length = lend_any(8, x);
    uint16_t *ts = (uint16_t *)triangles.at, *ms = (uint16_t *)told.at;
    struct cutborder_place *ps = (struct cutborder_place *)places.at;
    int32_t *e = (int32_t *)euler.at;
    size_t *s = (size_t *)start.at, *l = (size_t *)length.at;
    uint32_t n;
    if (call == UNPACK)
        n = cutborder_unpack(pack.at, q->bytes, ts, q->entries, ps, q->records, ms, e);
    else if (call == VOLUME)
        n = cutborder_volume(pack.at, q->bytes, ts, q->entries, ps, q->records, ms, e, (int64_t *)six.at);
    else
        n = cutborder_bench(pack.at, q->bytes, ts, q->entries, ps, q->records, ms, e, s, l);
    r->answer = answered(call, n);
    MUST(is_same(pack), "the pack was written to");
    MUST(n == 0 || (is_same(told) && is_same(euler) && is_same(six)), "%u changed the memory for results", n);
    left_as_promised(q, n, triangles, places);
    r->start = call == BENCH ? *s : 0, r->length = call == BENCH ? *l : 0;
    memcpy(&r->six, six.at, sizeof r->six);
    if (n == 0)
        keep(q, r, ms, *e, triangles);
    rooms_close();
}

static bool is_same_model(const struct model *a, const struct model *b)
{
    bool counts = a->v == b->v && a->t == b->t && a->edges == b->edges && a->rims == b->rims && a->unions == b->unions;
    return counts && a->euler == b->euler && memcmp(a->triangles, b->triangles, 6 * (size_t)a->t) == 0;
}

/* Six times the volume, by its definition. */
static int64_t volume_of(const struct fields *f, const struct model *m)
{
    int64_t sum = 0;
    for (size_t i = 0; i < m->t; i++) {
        int64_t c[9];
        for (size_t k = 0; k < 9; k++)
            c[k] = position(f, 3 * (size_t)m->triangles[3 * i + k / 3] + k % 3);
        sum += c[0] * (c[4] * c[8] - c[5] * c[7]) - c[1] * (c[3] * c[8] - c[5] * c[6]) + c[2] * (c[3] * c[7] - c[4] * c[6]);
    }
    return sum;
}

/* What the volume call answers where unpacking answers n. */
static uint32_t measured(const struct question *q, uint32_t n, const struct model *m)
{
    return n == 0 && (!q->fields.positions.at || m->rims > 0) ? 24 : n;
}

/* The furnace's reader beside the volume call. */
static void melt(const struct question *q, const struct reading *volume)
{
    rooms_open(q->with.where);
    struct room pack = lend_bytes(q->pack, q->bytes), memory = lend_any(1024, q->with.filler), six = lend_any(8, q->with.filler);
    uint32_t n = answered(MELT, furnace_read(pack.at, q->bytes, memory.at, (int64_t *)six.at)), v = volume->answer;
    MUST(is_same(pack), "the furnace's reader wrote to the pack");
    MUST(n == 0 || is_same(six), "%u changed the furnace's volume", n);
    bool over = q->is_whole && in_range(q->fields.counts) && (q->fields.counts[2] > 200 || q->fields.counts[3] > 12);
    MUST((n == 26) == over, "the furnace's reader answers %u", n);
    if (!over && v != 14 && v != 18 && v != 20)
        MUST(n == v && (n != 0 || memcmp(six.at, &volume->six, 8) == 0), "the furnace's reader answers %u, the volume call %u", n, v);
    rooms_close();
}

/* An accepted model packed again with its positions and note is the pack, numbered and ordered as it is. */
static void pack_again(const struct question *q, const struct model *m)
{
    static struct packed packed;
    static int16_t positions[3 * CUTBORDER_VERTICES];
    const struct fields *f = &q->fields;
    for (size_t i = 0; i < f->positions.bytes / 2; i++)
        positions[i] = (int16_t)position(f, i);
    const int16_t *given = f->positions.at ? positions : NULL;
    struct list l = {m->v, 3 * (size_t)m->t, m->triangles, given, f->positions.bytes / 2, f->note.at, f->note.bytes};
    uint32_t n = pack_list(&l, (struct lending){.where = q->with.where % 3, .filler = q->with.filler}, &packed);
    MUST(n == 0 && packed.size == q->bytes && memcmp(packed.bytes, q->pack, q->bytes) == 0, "packed again: %u", n);
    for (size_t i = 0; i < m->v; i++)
        MUST(packed.numbering[i] == i, "vertex %zu packed again is %u", i, packed.numbering[i]);
    for (size_t i = 0; i < m->t; i++)
        MUST(packed.order[i] == i, "triangle %zu packed again is %u", i, packed.order[i]);
}

/* The answers of the calls that read a pack, beside each other. */
static void agree(const struct question *q, const struct reading *unpack, const struct reading *bench, const struct reading *volume)
{
    const struct fields *f = &q->fields;
    const struct model *m = &unpack->model;
    uint32_t n = unpack->answer;
    MUST(bench->answer == n, "the bench reader answers %u, unpacking %u", bench->answer, n);
    bool noted = n == 0 && f->note.at;
    MUST(bench->length == (noted ? f->note.bytes : 0) && bench->start == (noted ? (size_t)(f->note.at - q->pack) : 0), "the note's place");
    MUST(volume->answer == measured(q, n, m), "the volume call answers %u, unpacking %u", volume->answer, n);
    if (n != 0)
        return;
    MUST(!f->positions.at || positions_fit(f), "positions do not fit");
    MUST(!f->note.at || (f->note.bytes >= 1 && f->note.bytes <= 64), "a note of %zu bytes", f->note.bytes);
    MUST(is_same_model(m, &bench->model), "the bench reader's model");
    if (volume->answer == 0)
        MUST(is_same_model(m, &volume->model) && volume->six == volume_of(f, m), "a volume of %lld", (long long)volume->six);
    pack_again(q, m);
}

uint32_t read_pack(const uint8_t *pack, size_t bytes, struct lending with, struct model *model)
{
    static struct reading unpack, bench, volume;
    struct question q = {.pack = pack, .bytes = bytes, .with = with};
    q.is_whole = split(pack, bytes, &q.fields);
    q.entries = about(3 * (size_t)q.fields.counts[1] % (CUTBORDER_ENTRIES + 3), with.entries);
    q.records = about(CUTBORDER_PLACES, with.records);
    read_by(UNPACK, &q, &unpack);
    read_by(BENCH, &q, &bench);
    read_by(VOLUME, &q, &volume);
    agree(&q, &unpack, &bench, &volume);
    melt(&q, &volume);
    if (unpack.answer == 0)
        *model = unpack.model;
    return unpack.answer;
}

/* An accepted model with its vertices and triangles in another order, and each triangle begun at another corner. */
static void shuffle(struct model *m, uint32_t seed)
{
    static uint16_t name[CUTBORDER_VERTICES];
    for (uint32_t i = 0; i < m->v; i++) {
        seed = seed * 1664525 + 1013904223;
        uint32_t k = (seed >> 8) % (i + 1);
        name[i] = name[k];
        name[k] = (uint16_t)i;
    }
    for (uint32_t i = 0; i < m->t; i++) {
        seed = seed * 1664525 + 1013904223;
        uint16_t *at = m->triangles + 3 * i, *other = m->triangles + 3 * ((seed >> 8) % (i + 1));
        uint16_t t[3] = {at[0], at[1], at[2]}, turn = (uint16_t)(seed >> 30);
        memmove(at, other, sizeof t);
        for (unsigned k = 0; k < 3; k++)
            other[k] = t[(k + turn) % 3];
    }
    for (size_t i = 0; i < 3 * (size_t)m->t; i++)
        m->triangles[i] = name[m->triangles[i]];
}

void fuzz_packs(struct input *in)
{
    static struct model model;
    static struct packed packed;
    struct lending with = {byte_of(in), byte_of(in), byte_of(in), byte_of(in), byte_of(in)};
    if (read_pack(in->at, in->left, with, &model) != 0)
        return;
    shuffle(&model, with.more);
    struct list l = {.v = model.v, .entries = 3 * (size_t)model.t, .numbers = model.triangles};
    uint32_t n = pack_list(&l, with, &packed);
    if (n == 0)
        MUST(read_pack(packed.bytes, packed.size, (struct lending){.where = with.where, .filler = with.filler}, &model) == 0, "a pack");
    MUST(n == 0 || n == 8 || n == 9 || n == 10 || n == 11 || n == 22, "an accepted model in another order: %u", n);
}
