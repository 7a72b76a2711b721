//! Rows for the furnace's own reader (C-16).

use crate::antt;
use crate::expected::{free_counts, unpack, volume, with_field, with_note};
use crate::positions::{different, field, field_of, packed, with, Row, COUNTS, FIVE, OPERATIONS, TETRAHEDRON, TORUS, TURNED};
use crate::second::Melting;
use cutborder::ops::{encode_ops, pack_bytes, Counts, Op, Op::*};
use cutborder::Place;

fn row(name: &str, bytes: &[u8]) -> Row {
    let x = Melting::new(bytes);
    let told = x.told.map_or_else(|n| format!("refusal {n}"), |six| format!("six {six}"));
    (format!("melt: {name}: {told}"), antt::melting(&x))
}

/// M2: V, T and the peaks are 4, 4, 4 and 1.
const M2: [Op; 4] = [Start, New, Forward, Close];

/// M1: they are 3, 1, 3 and 1.
const M1: [Op; 4] = [Start, Border, Border, Border];

/// A pack with these counts and operations, and fields after them.
fn pack([v, t, places, loops]: [u32; 4], ops: &[Op], later: &[&[u8]]) -> Vec<u8> {
    [pack_bytes(Counts { v, t, places, loops }, &encode_ops(ops)), later.concat()].concat()
}

/// Positions for v vertices, as a field.
fn three(v: usize) -> Vec<u8> {
    field_of(&different(v))
}

/// Fields that 23 and 25 refuse.
fn unfit_three() -> Vec<u8> {
    field_of(&[2_048])
}

fn unfit_four() -> Vec<u8> {
    field(4, &[])
}

/// The pack of operations that the table allows, with positions.
fn free(ops: &[Op]) -> Vec<u8> {
    let c = free_counts(ops);
    pack([c.v, c.t, c.places, c.loops], ops, &[&three(c.v as usize)])
}

/// A pack that the volume call measures too.
fn measured(name: &str, bytes: &[u8]) -> Row {
    let six = volume(bytes, &mut [0; 1_188], &mut vec![Place::default(); 1_024]).map(|m| m.1);
    assert!(six.is_ok() && six == Melting::new(bytes).told, "{name}");
    row(name, bytes)
}

fn volumes() -> Vec<Row> {
    let two = "8 0 1 2 1 0 3 2 1 3 0 2 3 4 5 6 5 4 7 6 5 7 4 6 7";
    let split = "6 4 3 5 3 1 0 2 5 0 3 4 1 1 4 5 1 5 2 0 1 2 3 0 5";
    let m2 = packed(TETRAHEDRON, &different(4));
    vec![
        measured("M2, corners at 0 and at 5 of each axis", &packed(TETRAHEDRON, &FIVE)),
        measured("M2, the same turned inside out", &packed(TURNED, &FIVE)),
        measured("M2, different numbers", &m2),
        measured("M2, the same and a note", &with_note(&m2, &[65])),
        measured("M2, the same and a note of 64 bytes", &with_note(&m2, &[4; 64])),
        measured("M4", &[&COUNTS[..], &OPERATIONS, &three(3)].concat()),
        measured("two pieces", &packed(two, &different(8))),
        measured("a split", &packed(split, &different(6))),
        measured("a torus, with unions", &packed(TORUS, &different(7))),
    ]
}

/// 12: the fields are not in their places, whole, at most once.
fn misplaced() -> Vec<Row> {
    let (three, four) = (&three(3)[..], &field(4, &[65])[..]);
    let (counts, ops) = (&COUNTS[..], &OPERATIONS[..]);
    let peaks = &[1, 0, 8, 0, 2, 0, 2, 0, 201, 0, 13][..];
    let arrangements = [
        ("12: nothing", vec![]),
        ("12: 01 has a length of 7", vec![&[1, 0, 7, 0, 3, 0, 2, 0, 3, 0], ops, three]),
        ("12: no 02", vec![counts, three]),
        ("12: 03 twice", vec![counts, ops, three, three]),
        ("12: 03 cut in its contents", vec![counts, ops, &three[..20]]),
        ("12: 04 before 03", vec![counts, ops, four, three]),
        ("12: 04 twice", vec![counts, ops, three, four, four]),
        ("12: a byte after 04", vec![counts, ops, three, four, &[0]]),
        ("12: 05 before 02", vec![counts, &[5, 0, 8, 0, 1, 2, 3, 4, 5, 7, 6], ops, three]),
        ("12 before 13 and 26", vec![peaks, ops, three, &[0]]),
    ];
    arrangements.iter().map(|(name, parts)| row(name, &parts.concat())).collect()
}

/// 13 and 26, by the counts of M2, with its operations and with none.
fn stated() -> Vec<Row> {
    let m2 = |name: &str, counts: [u32; 4]| row(name, &pack(counts, &M2, &[&three(4)]));
    let none = |name: &str, counts: [u32; 4]| row(name, &pack(counts, &[], &[&three(4)]));
    vec![
        m2("13: V 2", [2, 4, 4, 1]),
        m2("13: T 0", [4, 0, 4, 1]),
        m2("13: no loops", [4, 4, 4, 0]),
        m2("13 before 26: 1,025 places", [4, 4, 1_025, 1]),
        m2("13 before 26: 101 loops", [4, 4, 4, 101]),
        m2("13 before 26: V 4,097 and 201 places", [4_097, 4, 201, 1]),
        m2("13 before 26: no loops and 201 places", [4, 4, 201, 0]),
        m2("26: 201 places and 13 loops", [4, 4, 201, 13]),
        m2("26: 1,024 places and 100 loops", [4, 4, 1_024, 100]),
        none("26 before 15: 201 places", [4, 4, 201, 1]),
        none("26 before 15: 13 loops", [4, 4, 4, 13]),
        row("26 before 16", &pack([4, 4, 201, 1], &[Start, Forward], &[&three(4)])),
        m2("26 before 17", [3, 4, 4, 13]),
        m2("26 before 19: 201 places", [4, 4, 201, 1]),
        m2("26 before 19: 13 loops", [4, 4, 4, 13]),
        none("200 places and 12 loops pass 26", [4, 4, 200, 12]),
        m2("200 places pass 26", [4, 4, 200, 1]),
        m2("12 loops pass 26", [4, 4, 4, 12]),
    ]
}

/// 15 to 17.
fn operations() -> Vec<Row> {
    let run = |name: &str, counts: [u32; 4], ops: &[Op]| row(name, &pack(counts, ops, &[&three(4)]));
    let cut = pack_bytes(Counts { v: 4, t: 4, places: 4, loops: 1 }, &[0b1110_0010, 0]);
    vec![
        run("15: no operations", [4, 4, 4, 1], &[]),
        run("15: T triangles and a live loop", [3, 1, 3, 1], &[Start, Border]),
        row("15: a split breaks off inside i", &with_field(&cut, &three(4)[3..])),
        run("16: new without a live loop", [4, 4, 4, 1], &[New]),
        run("16: start in a live loop", [6, 4, 6, 2], &[Start, Start]),
        run("16: forward in a loop of three", [4, 4, 4, 1], &[Start, Forward]),
        run("16 before 17: forward in a loop of three", [3, 1, 3, 1], &[Start, Forward]),
        run("17: a vertex too many, then no operation", [3, 4, 4, 1], &[Start, New]),
        run("17: a triangle too many, then no operation", [4, 1, 4, 1], &[Start, New]),
        run("17: a place too many, then no operation", [4, 4, 3, 1], &[Start, New]),
        run("17: a loop too many, then no operation", [5, 9, 9, 1], &[Start, New, New, Split(2)]),
    ]
}

/// 19.
fn ended() -> Vec<Row> {
    let m2 = |name: &str, counts: [u32; 4]| row(name, &pack(counts, &M2, &[&three(4)]));
    let left = |name: &str, ops: &[u8]| {
        let two = pack_bytes(Counts { v: 4, t: 4, places: 4, loops: 1 }, ops);
        row(name, &with_field(&two, &three(4)[3..]))
    };
    vec![
        m2("19: V 5", [5, 4, 4, 1]),
        m2("19: five places", [4, 4, 5, 1]),
        m2("19: two loops", [4, 4, 4, 2]),
        left("19: a byte left over", &[0xe0, 0xd0, 0]),
        left("19: the first fill bit", &[0xe0, 0xd8]),
        left("19: the last fill bit", &[0xe0, 0xd1]),
    ]
}

/// 23, 25 and 24, and their order.
fn later() -> Vec<Row> {
    let m2 = |name: &str, later: &[&[u8]]| row(name, &pack([4, 4, 4, 1], &M2, later));
    let m1 = |name: &str, later: &[&[u8]]| row(name, &pack([3, 1, 3, 1], &M1, later));
    let (sound, bad, four) = (&three(4)[..], &unfit_three()[..], &unfit_four()[..]);
    let far = |i: usize, n: i32| field_of(&with(different(4), i, n));
    vec![
        m2("23: no byte", &[&field(3, &[])]),
        m2("23: a vertex less", &[&three(3)]),
        m2("23: a vertex more", &[&three(5)]),
        m2("23: a byte less", &[&field(3, &sound[3..26])]),
        m2("23: position 0 is 2,048", &[&far(0, 2_048)]),
        m2("23: position 11 is -2,049", &[&far(11, -2_049)]),
        m2("25: no byte", &[sound, four]),
        m2("25: 65 bytes", &[sound, &field(4, &[4; 65])]),
        m2("24: no positions", &[]),
        m2("24: no positions, a note", &[&field(4, &[65])]),
        m1("24: a rim", &[&three(3)]),
        m1("24: a rim, a note", &[&three(3), &field(4, &[65])]),
        m1("24: a rim and no positions", &[]),
        row("24: two rims", &packed("6 3 5 4 2 0 1", &different(6))),
        m2("23 before 25", &[bad, four]),
        m1("23 before 24: a rim", &[bad]),
        m2("25 before 24: no positions", &[four]),
        m1("25 before 24: a rim", &[&three(3), four]),
    ]
}

/// 13, 26, 15, 16, 17 and 19 before 23, 25 and 24; 15 to 17 before 19.
fn orders() -> Vec<Row> {
    let faults: [(u8, [u32; 4], &[Op]); 6] = [
        (13, [2, 4, 4, 1], &M2),
        (26, [4, 4, 201, 1], &M2),
        (15, [5, 4, 4, 1], &[Start, New]),
        (16, [5, 4, 4, 1], &[Start, Forward]),
        (17, [5, 4, 3, 1], &M2),
        (19, [5, 4, 4, 1], &M2),
    ];
    let mut rows = Vec::new();
    for (n, counts, ops) in faults {
        rows.push(row(&format!("{n} before 23 and 25"), &pack(counts, ops, &[&unfit_three(), &unfit_four()])));
        rows.push(row(&format!("{n} before 24: no positions"), &pack(counts, ops, &[])));
    }
    let after_m1 = |name: &str, counts: [u32; 4], ops: &[Op]| {
        row(name, &pack(counts, &[&M1[..], ops].concat(), &[&three(counts[0] as usize)]))
    };
    rows.extend([
        after_m1("15 before 24: a rim", [9, 9, 9, 1], &[Start, New, New, New]),
        after_m1("16 before 24: a rim", [9, 9, 9, 1], &[Start, Forward]),
        after_m1("17 before 24: a rim", [5, 9, 9, 1], &[Start]),
        after_m1("19 before 24: a rim", [4, 1, 3, 1], &[]),
    ]);
    rows
}

/// A pack that unpacking refuses with n, which the reader does not test.
fn beyond(n: u8, name: &str, bytes: &[u8]) -> Row {
    let refused = unpack(bytes, &mut [0; 300], &mut vec![Place::default(); 1_024]);
    assert_eq!(refused, Err(n), "{name}");
    row(&format!("beyond {n}: {name}"), bytes)
}

/// Past a fault of 18.
fn beyond_18() -> Vec<Row> {
    let edges = [Start, New, New, Backward, Forward, Close];
    let split = [Start, New, New, Split(2), Close, Close];
    let twice = [vec![Start, New, New, Split(2), Union(1, 1)], vec![Forward; 4], vec![Close]].concat();
    let loops = [vec![Start], [New, New, Split(2)].repeat(11), vec![Close; 12]].concat();
    let rim = [Start, Border, Forward, Border];
    let row = |name: &str, counts: [u32; 4], ops: &[Op], later: &[&[u8]]| beyond(18, name, &pack(counts, ops, later));
    let (v, counts) = (&three(5)[..], [5, 6, 5, 1]);
    vec![
        beyond(18, "c→b is used", &free(&edges)),
        beyond(18, "a split to a neighbour of f", &free(&split)),
        beyond(18, "c is a", &free(&twice)),
        beyond(18, "12 loops", &free(&loops)),
        row("15", counts, &edges[..5], &[v]),
        row("16", counts, &[Start, New, New, Backward, Close], &[v]),
        row("17: a place too many", [9, 9, 5, 1], &[Start, New, New, Backward, New, New], &[v]),
        row("19: six places", [5, 6, 6, 1], &edges, &[v]),
        row("23", counts, &edges, &[&unfit_three()]),
        row("25", counts, &edges, &[v, &unfit_four()]),
        row("24: no positions", counts, &edges, &[]),
        row("24: a rim", [3, 2, 3, 1], &rim, &[&three(3)]),
    ]
}

/// Past a fault of 20, which has a rim.
fn beyond_20() -> Vec<Row> {
    let ops = [Start, New, New, Border, Border, Split(2), Border, Border, Border, Border];
    let row = |name: &str, later: &[&[u8]]| beyond(20, name, &pack([5, 4, 5, 2], &ops, later));
    vec![
        row("24: a rim", &[&three(5)]),
        row("23", &[&unfit_three()]),
        row("25", &[&three(5), &unfit_four()]),
        row("24: no positions", &[]),
    ]
}

/// The most places: a fan about vertex 1, closed by one about the last vertex. Its row is the last, since it is long to compute under a
/// wrong definition.
fn two_fans() -> Row {
    let ops = [vec![Start], vec![New; 197], vec![Forward; 197], vec![Close]].concat();
    let mut positions = vec![0; 600];
    positions[..12].copy_from_slice(&different(4));
    positions[597..].copy_from_slice(&[7, -8, 9]);
    measured("200 places", &pack([200, 396, 200, 1], &ops, &[&field_of(&positions)]))
}

pub fn packs() -> Vec<Row> {
    [volumes(), misplaced(), stated(), operations(), ended(), later(), orders(), beyond_18(), beyond_20(), vec![two_fans()]].concat()
}
