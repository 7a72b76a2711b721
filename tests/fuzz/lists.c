/* Any numbers as a list: checked, packed in four ways, linked and searched. */
#include "fuzz.h"

/* The last triangle with the edge from p to q, by looking at all. */
static bool find(const uint16_t *list, size_t entries, uint16_t p, uint16_t q, uint16_t found[3])
{
    for (size_t t = entries / 3; t-- > 0;)
        for (unsigned i = 3; i-- > 0;)
            if (list[3 * t + i] == p && list[3 * t + (i + 1) % 3] == q) {
                found[0] = (uint16_t)t, found[1] = (uint16_t)((i + 2) % 3), found[2] = list[3 * t + (i + 2) % 3];
                return true;
            }
    return false;
}

/* The first of 1 to 4 that refuses a list, or 0. */
static uint32_t plainly_refused(const struct list *l)
{
    if (l->entries == 0 || l->entries > CUTBORDER_ENTRIES || l->entries % 3 != 0)
        return 1;
    if (l->v < 3 || l->v > CUTBORDER_VERTICES)
        return 2;
    for (size_t i = 0; i < l->entries; i++)
        if (l->numbers[i] >= l->v)
            return 3;
    for (const uint16_t *t = l->numbers; t < l->numbers + l->entries; t += 3)
        if (t[0] == t[1] || t[1] == t[2] || t[2] == t[0])
            return 4;
    return 0;
}

/* Whether each vertex of a list that passes 3 is in a triangle. */
static bool uses_all(const struct list *l)
{
    static bool used[CUTBORDER_VERTICES];
    size_t vertices = 0;
    memset(used, 0, l->v);
    for (size_t i = 0; i < l->entries; i++) {
        vertices += !used[l->numbers[i]];
        used[l->numbers[i]] = true;
    }
    return vertices == l->v;
}

/* A check; of its answers 5 and 7 are left to unpacking. */
static uint32_t check(const struct list *l, struct lending with)
{
    rooms_open(with.where);
    struct room list = lend_bytes(l->numbers, 2 * l->entries);
    uint32_t n = answered(CHECK, cutborder_check(l->v, (const uint16_t *)list.at, l->entries)), plain = plainly_refused(l);
    MUST(is_same(list), "the check wrote to the list");
    MUST(plain ? n == plain : n == 0 || n > 4, "the check answers %u", n);
    if (n == 0 || n == 6 || n == 7)
        MUST(uses_all(l) == (n != 6), "the check answers %u", n);
    rooms_close();
    return n;
}

/* A search; `linked` if the links are the list's. */
static void search(struct room list, struct room links, uint16_t p, uint16_t q, bool linked)
{
    struct room found = lend_any(6, (uint8_t)p);
    const uint16_t *xs = (const uint16_t *)list.at;
    uint16_t expected[3], *out = (uint16_t *)found.at;
    uint32_t n = answered(SEARCH, cutborder_search(xs, list.bytes / 2, (const uint16_t *)links.at, p, q, out));
    MUST(is_same(list), "searching wrote to the list");
    MUST(n == 1 || is_same(found), "nothing found, and something written");
    if (!linked)
        return;
    bool has = find(xs, list.bytes / 2, p, q, expected);
    MUST(n == has && (!has || memcmp(out, expected, sizeof expected) == 0), "%u>%u is found %u times", p, q, n);
}

/* Linking answers 1 to 4 as the check does, and asks no more. Then edges of the list are searched for, and others; at last with links
 * that are not its own. */
static void link_and_search(const struct list *l, struct lending with, uint32_t checked)
{
    rooms_open(with.where);
    struct room list = lend_bytes(l->numbers, 2 * l->entries), links = lend_any(2 * CUTBORDER_LINKS, with.filler);
    uint16_t *ls = (uint16_t *)links.at;
    uint32_t n = answered(LINK, cutborder_link(l->v, (const uint16_t *)list.at, l->entries, ls));
    MUST(n == (checked <= 4 ? checked : 0), "linking answers %u, the check %u", n, checked);
    MUST(is_same(list) && (n == 0 || is_same(links)), "linking answers %u and wrote", n);
    for (unsigned i = 0; i < 8; i++) {
        size_t at = l->entries ? (with.more * 7u + i * 131u) % l->entries : 0;
        size_t next = at % 3 == 2 ? at - 2 : at + 1 < l->entries ? at + 1 : 0;
        uint16_t p = l->entries ? l->numbers[at] : 1, q = l->entries ? l->numbers[next] : 0;
        if (i == 6)
            memcpy(ls + with.more, l->numbers, 2 * (l->entries < 9 ? l->entries : 9));
        search(list, links, i % 3 == 2 ? q : p, i % 3 == 2 ? p : q, n == 0 && i < 6);
    }
    rooms_close();
}

/* The buffers of a packing. */
struct buffers {
    struct room numbering, pack, order, places;
};

/* Whether some of the numbers are not on the grid. */
static bool fits(const struct list *l)
{
    if (l->position_entries != 3 * l->v)
        return false;
    for (size_t i = 0; i < l->position_entries; i++)
        if (l->positions[i] < -2048 || l->positions[i] > 2047)
            return false;
    return true;
}

/* The first refusal of 1 to 8, 22, 23 and 25, or 0. */
static uint32_t early(const struct list *l, uint32_t checked, const struct buffers *b)
{
    if (checked != 0)
        return checked;
    if (b->numbering.bytes / 2 < l->v || b->places.bytes / 8 < CUTBORDER_PLACES)
        return 8;
    if (b->order.bytes / 2 < l->entries / 3)
        return 22;
    if (l->positions && !fits(l))
        return 23;
    return l->note && (l->note_bytes < 1 || l->note_bytes > 64) ? 25 : 0;
}

/* What a packing leaves of its buffers. */
static void left_as_promised(const struct list *l, const struct buffers *b, uint32_t n, uint32_t refusal, uint32_t size)
{
    size_t v = 2 * l->v, t = 2 * (l->entries / 3);
    MUST(refusal ? n == refusal : n == 0 || (n >= 9 && n <= 11), "packing answers %u, by the list %u", n, refusal);
    if (refusal) {
        MUST(is_same(b->numbering) && is_same(b->pack) && is_same(b->order) && places_same(b->places), "%u changed a buffer", n);
        return;
    }
    MUST(places_zero(b->places) && places_same_from(b->places, CUTBORDER_PLACES), "place records after %u", n);
    MUST(is_same_from(b->numbering, v) && is_same_from(b->order, t), "written beyond, after %u", n);
    if (n == 0)
        MUST(size <= b->pack.bytes && is_same_from(b->pack, size), "written beyond the pack");
    else
        MUST(is_zero(b->numbering, v) && is_zero(b->order, t) && is_zero(b->pack, b->pack.bytes), "buffers after %u", n);
}

/* The numbers are 0 to n - 1, each once. */
static void all_once(const uint16_t *xs, size_t n)
{
    static uint8_t met[CUTBORDER_TRIANGLES];
    memset(met, 0, n);
    for (size_t i = 0; i < n; i++)
        MUST(xs[i] < n && !met[xs[i]]++, "%u is twice, or no number below %zu", xs[i], n);
}

/* The call that packs what is given. */
static uint32_t call(const struct list *l, const struct buffers *b, struct room list, struct room positions, struct room note,
                     uint32_t *size)
{
    const uint16_t *xs = (const uint16_t *)list.at;
    const int16_t *zs = (const int16_t *)positions.at;
    uint16_t *ns = (uint16_t *)b->numbering.at, *os = (uint16_t *)b->order.at;
    uint8_t *bs = b->pack.at;
    struct cutborder_place *ps = (struct cutborder_place *)b->places.at;
    size_t n = l->entries, nl = b->numbering.bytes / 2, bl = b->pack.bytes, ol = b->order.bytes / 2, pl = b->places.bytes / 8;
    size_t zl = l->position_entries, tl = l->note_bytes;
    if (l->positions && l->note)
        return answered(PACK_POSITIONS_NOTE,
                        cutborder_pack_positions_note(l->v, xs, n, zs, zl, note.at, tl, ns, nl, bs, bl, os, ol, ps, pl, size));
    if (l->positions)
        return answered(PACK_POSITIONS, cutborder_pack_positions(l->v, xs, n, zs, zl, ns, nl, bs, bl, os, ol, ps, pl, size));
    if (l->note)
        return answered(PACK_NOTE, cutborder_pack_note(l->v, xs, n, note.at, tl, ns, nl, bs, bl, os, ol, ps, pl, size));
    return answered(PACK, cutborder_pack(l->v, xs, n, ns, nl, bs, bl, os, ol, ps, pl, size));
}

/* One packing into a buffer of so many bytes. */
static uint32_t pack_into(const struct list *l, struct lending with, uint32_t checked, size_t bytes, struct packed *out)
{
    uint8_t x = with.filler;
    size_t v = l->v < 5000 ? l->v : 5000;
    rooms_open(with.where);
    struct room list = lend_bytes(l->numbers, 2 * l->entries), size = lend_any(4, x);
    struct room positions = lend_bytes(l->positions, l->positions ? 2 * l->position_entries : 0);
    struct room note = lend_bytes(l->note, l->note ? l->note_bytes : 0);
    struct buffers b = {lend_any(2 * about(v, with.entries), x), lend_any(bytes, x), lend_any(2 * about(l->entries / 3, with.more), x),
                        lend_places(about(CUTBORDER_PLACES, with.records), x)};
    uint32_t n = call(l, &b, list, positions, note, (uint32_t *)size.at);
    MUST(is_same(list) && is_same(positions) && is_same(note), "packing wrote to its input");
    MUST(n == 0 || is_same(size), "%u changed the size", n);
    memcpy(&out->size, size.at, 4);
    left_as_promised(l, &b, n, early(l, checked, &b), out->size);
    if (n == 0) {
        memcpy(out->bytes, b.pack.at, out->size);
        memcpy(out->numbering, b.numbering.at, 2 * l->v);
        memcpy(out->order, b.order.at, 2 * (l->entries / 3));
    }
    rooms_close();
    return n;
}

/* Triangle i of the unpacked model is triangle order[i] of the list, its corners under their new numbers. */
static void unpacks_to(const struct list *l, const struct packed *packed, const uint16_t *triangles)
{
    for (size_t i = 0; i < l->entries / 3; i++) {
        const uint16_t *old = l->numbers + 3 * (size_t)packed->order[i], *new = triangles + 3 * i;
        uint16_t t[3] = {packed->numbering[old[0]], packed->numbering[old[1]], packed->numbering[old[2]]};
        bool turned = false;
        for (unsigned k = 0; k < 3; k++)
            turned |= new[0] == t[k] && new[1] == t[(k + 1) % 3] && new[2] == t[(k + 2) % 3];
        MUST(turned, "triangle %zu is %u %u %u", i, new[0], new[1], new[2]);
    }
}

/* An accepted pack: its buffer may be no shorter; it unpacks to the list. */
static void holds(const struct list *l, struct lending with, const struct packed *packed)
{
    static struct packed other;
    static struct cutborder_place places[CUTBORDER_PLACES];
    static uint16_t triangles[CUTBORDER_ENTRIES], told[5];
    int32_t euler;
    MUST(pack_into(l, with, 0, packed->size - 1, &other) == 11, "a pack of %u bytes in one less", packed->size);
    MUST(pack_into(l, with, 0, packed->size, &other) == 0 && other.size == packed->size, "a pack in %u bytes", packed->size);
    MUST(memcmp(other.bytes, packed->bytes, packed->size) == 0, "the pack is another now");
    all_once(packed->numbering, l->v);
    all_once(packed->order, l->entries / 3);
    uint32_t n = cutborder_unpack(packed->bytes, packed->size, triangles, l->entries, places, CUTBORDER_PLACES, told, &euler);
    answered(UNPACK, n);
    MUST(n == 0 && told[0] == l->v && told[1] == l->entries / 3, "a pack is refused with %u, or has %u triangles", n, told[1]);
    unpacks_to(l, packed, triangles);
}

uint32_t pack_list(const struct list *l, struct lending with, struct packed *packed)
{
    uint32_t checked = check(l, with);
    link_and_search(l, with, checked);
    bool ample = with.where < 250;
    uint32_t n = pack_into(l, with, checked, ample ? CUTBORDER_PACK_BYTES : with.filler, packed);
    MUST(n != 11 || !ample, "the longest pack is too long");
    if (n == 0)
        holds(l, with, packed);
    return n;
}

/* Positions for v vertices, which mostly fit. */
static const int16_t *some_positions(size_t v, uint8_t knob, size_t *entries)
{
    static int16_t positions[3 * 5000 + 300];
    *entries = about(3 * (v < 5000 ? v : 5000), knob);
    for (size_t i = 0; i < *entries; i++)
        positions[i] = (int16_t)((i + knob) * 2654435761u >> 16 & 0xfff) - 2048;
    if (knob % 16 == 15 && *entries > 0)
        positions[knob * 37u % *entries] = knob & 16 ? 2048 : knob & 32 ? -2049 : knob & 64 ? INT16_MIN : INT16_MAX;
    return positions;
}

/* Numbers from the input, of one byte or of two each; or the longest list and one more. */
static size_t numbers(struct input *in, uint8_t kind, uint16_t *list)
{
    size_t n = 0, most = CUTBORDER_ENTRIES + 6;
    while (in->left > 0 && n < most)
        list[n++] = kind % 2 ? byte_of(in) : two_of(in);
    if (kind < 240)
        return n;
    for (size_t i = n; n > 0 && i < most; i++)
        list[i] = list[i - n];
    return n == 0 ? 0 : CUTBORDER_ENTRIES + kind % 4;
}

void fuzz_lists(struct input *in)
{
    static uint16_t list[CUTBORDER_ENTRIES + 6];
    static struct packed packed;
    static struct model model;
    static uint8_t note[400];
    struct lending with = {byte_of(in), byte_of(in), byte_of(in), byte_of(in), byte_of(in)};
    uint8_t given = byte_of(in), knob = byte_of(in), kind = byte_of(in);
    size_t v = two_of(in);
    if (given >= 252)
        v = given == 255 ? SIZE_MAX - v : v << 16;
    struct list l = {.v = v, .numbers = list, .entries = numbers(in, kind, list)};
    if (given & 1)
        l.positions = some_positions(v, knob, &l.position_entries);
    if (given & 2) {
        memset(note, knob, sizeof note);
        l.note = note, l.note_bytes = knob % 8 < 6 ? 1 + knob % 64 : about(64, knob);
    }
    if (pack_list(&l, with, &packed) == 0)
        MUST(read_pack(packed.bytes, packed.size, (struct lending){.where = with.where, .filler = with.filler}, &model) == 0, "a pack");
}
