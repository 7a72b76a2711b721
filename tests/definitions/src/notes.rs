//! Rows for notes (C-15): packing with one, packs with and without it, and the bench reader.

use crate::expected::LIMITS;
use crate::positions::{different, field, field_of, packed, packing_row, whole_row, with};
use crate::positions::{Row, COUNTS, OPERATIONS, TETRAHEDRON, TRIANGLE, V_2};
use crate::second::{Extras, PackBuffers};
use crate::table::{M1, SPLIT};
use cutborder::proto::unhex;

/// A note of so many bytes: all different up to 64, the first is zero.
fn bytes(n: usize) -> Vec<u8> {
    (0..n).map(|i| (37 * i) as u8).collect()
}

fn pack_row(name: &str, line: &str, positions: Option<Vec<i32>>, note: &[u8], change: impl Fn(&mut PackBuffers)) -> Row {
    limited_row(name, LIMITS, line, positions, note, change)
}

fn limited_row(
    name: &str,
    limits: (u32, u32),
    line: &str,
    positions: Option<Vec<i32>>,
    note: &[u8],
    change: impl Fn(&mut PackBuffers),
) -> Row {
    packing_row(&format!("note: {name}"), limits, line, Extras { positions, note: Some(note.to_vec()) }, change)
}

/// Notes that are packed, and 25 by a length.
fn lengths() -> Vec<Row> {
    let same = |_: &mut PackBuffers| ();
    vec![
        pack_row("one byte, no positions", TRIANGLE, None, &[65], same),
        pack_row("a zero byte", TRIANGLE, None, &[0], same),
        pack_row("positions and a note, vertices in the order 2 0 1", "3 2 0 1", Some(different(3)), &[7, 0, 255, 0], same),
        pack_row("64 bytes", TRIANGLE, None, &bytes(64), same),
        pack_row("positions and 64 bytes", TRIANGLE, Some(different(3)), &bytes(64), same),
        pack_row("25: 0 bytes", TRIANGLE, None, &[], same),
        pack_row("25: positions and 0 bytes", TRIANGLE, Some(different(3)), &[], same),
        pack_row("25: 65 bytes", TRIANGLE, None, &bytes(65), same),
        pack_row("25: 257 bytes", TRIANGLE, None, &bytes(257), same),
    ]
}

/// The place of 25 among the others.
fn orders() -> Vec<Row> {
    let none = |r: &mut PackBuffers| r.pack.clear();
    let pair = "4 0 1 2 1 0 3";
    vec![
        pack_row("5 before 25", "4 0 1 2 0 1 3", None, &[], |_| ()),
        pack_row("7 before 25", "5 0 1 2 0 3 4", None, &[], |_| ()),
        pack_row("8 before 25: numbering", TRIANGLE, None, &[], |r| r.numbering.truncate(2)),
        pack_row("8 before 25: places", TRIANGLE, None, &[], |r| r.places.truncate(1_023)),
        pack_row("22 before 25", pair, None, &[], |r| r.order.truncate(1)),
        pack_row("23 before 25: no position", TRIANGLE, Some(vec![]), &[], |_| ()),
        pack_row("23 before 25: a position", TRIANGLE, Some(with(different(3), 8, 2_048)), &bytes(65), |_| ()),
        limited_row("25 before 9", (3, 1), pair, None, &[], |_| ()),
        limited_row("25 before 10", (1_024, 1), SPLIT, None, &[], |_| ()),
        pack_row("25 before 11", TRIANGLE, None, &bytes(65), none),
        limited_row("9", (3, 1), pair, None, &[65], none),
        pack_row("11: no room for the note's last byte", TRIANGLE, None, &[65, 66], |r| r.pack.truncate(20)),
        pack_row("11: room for all but the note", TRIANGLE, Some(different(3)), &[65], |r| r.pack.truncate(37)),
        pack_row("buffers just long enough", TRIANGLE, Some(different(3)), &[65], |r| {
            r.numbering.truncate(3);
            r.pack.truncate(41);
            r.order.truncate(1);
        }),
    ]
}

/// Packings with a note.
pub fn packings() -> Vec<Row> {
    [lengths(), orders()].concat()
}

/// M4 with these fields after its two, in buffers that are long enough.
fn m4_row(name: &str, later: &[&[u8]]) -> Row {
    whole_row(name, &[&COUNTS[..], &OPERATIONS, &later.concat()].concat(), 7, 1_025)
}

/// Notes that are handed back, and 25, which hands back none.
fn read() -> Vec<Row> {
    let three = &field_of(&different(3))[..];
    let four = |n: usize| field(4, &bytes(n));
    let closed = [packed(TETRAHEDRON, &different(4)), field(4, &[65])].concat();
    let rim = [unhex(M1).expect("hexadecimal"), three.to_vec(), field(4, &[65])].concat();
    vec![
        m4_row("field 04 after 02", &[&field(4, &[65])]),
        m4_row("field 04 after 03", &[three, &field(4, &[65])]),
        m4_row("field 04 of zero bytes", &[three, &field(4, &[0, 0])]),
        m4_row("field 04 that has fields 03 and 04", &[&field(4, &[3, 0, 0, 4, 0, 1, 65])]),
        m4_row("field 04 of 64 bytes", &[&four(64)]),
        m4_row("field 04 of 64 bytes after 03", &[three, &four(64)]),
        whole_row("field 04, volume of M2", &closed, 15, 1_024),
        whole_row("field 04, a rim", &rim, 4, 1_024),
        m4_row("25 before 24: field 04 of 0 bytes, no field 03", &[&four(0)]),
        m4_row("25: field 04 of 0 bytes after 03", &[three, &four(0)]),
        m4_row("25: field 04 of 65 bytes", &[&four(65)]),
        m4_row("25: field 04 of 65 bytes after 03", &[three, &four(65)]),
        m4_row("25: field 04 of 257 bytes", &[&four(257)]),
    ]
}

/// 12: the field is not in its place, whole, once, or something follows it.
fn misplaced() -> Vec<Row> {
    let three = &field_of(&different(3))[..];
    let four = &field(4, &[65, 66])[..];
    let (counts, ops) = (&COUNTS[..], &OPERATIONS[..]);
    let short = &[1, 0, 7, 0, 3, 0, 2, 0, 3, 0][..];
    let arrangements = [
        ("12: field 04 twice", vec![counts, ops, four, four]),
        ("12: field 04 twice after 03", vec![counts, ops, three, four, four]),
        ("12: field 04 before 03", vec![counts, ops, four, three]),
        ("12: field 03 twice, then 04", vec![counts, ops, three, three, four]),
        ("12: field 04 before 02", vec![counts, four, ops]),
        ("12: field 04 before 01", vec![four, counts, ops]),
        ("12: field 04 and no 02", vec![counts, four]),
        ("12: fields 03 and 04 and no 02", vec![counts, three, four]),
        ("12: field 04 and no 01", vec![ops, four]),
        ("12: field 04 alone", vec![four]),
        ("12: field 04 cut after its tag", vec![counts, ops, &four[..1]]),
        ("12: field 04 cut in its length", vec![counts, ops, &four[..2]]),
        ("12: field 04 cut before its contents", vec![counts, ops, three, &four[..3]]),
        ("12: field 04 cut in its contents", vec![counts, ops, three, &four[..4]]),
        ("12: a byte after field 04", vec![counts, ops, four, &[0]]),
        ("12: a byte after fields 03 and 04", vec![counts, ops, three, four, &[0]]),
        ("12: a byte after field 04 of 0 bytes", vec![counts, ops, &[4, 0, 0], &[0]]),
        ("12: tag 05 after field 04", vec![counts, ops, four, &[5, 0, 0]]),
        ("12: tag 05 for 04", vec![counts, ops, three, &[5], &four[1..]]),
        ("12: 02 again after field 04", vec![counts, ops, four, ops]),
        ("12: 01 has a length of 7, and field 04", vec![short, ops, four]),
        ("12 before 13: field 04 twice", vec![&V_2, ops, four, four]),
    ];
    arrangements.iter().map(|(name, parts)| whole_row(name, &parts.concat(), 4, 1)).collect()
}

/// The place of 25 among the others.
fn others() -> Vec<Row> {
    let bad = field(4, &[]);
    let three = field_of(&different(3));
    let row = |name: &str, hex: &str, triangles: usize| {
        whole_row(name, &[unhex(hex).expect("hexadecimal"), bad.clone()].concat(), triangles, 1_024)
    };
    vec![
        whole_row("13 before 25", &[&V_2[..], &OPERATIONS, &bad].concat(), 6, 1),
        whole_row("14 before 25: triangles", &[&COUNTS[..], &OPERATIONS, &bad].concat(), 5, 1_024),
        whole_row("14 before 25: places", &[&COUNTS[..], &OPERATIONS, &bad].concat(), 6, 1_023),
        row("15 before 25", "0100080003000100030001020000", 4),
        row("18 before 25", "0100080005000400060002020003e04008", 12),
        row("19 before 25", "0100080004000100030001020002edb0", 4),
        row("20 before 25", "0100080005000400050002020005e186e004db", 12),
        m4_row("23 before 25: no position", &[&field(3, &[]), &bad]),
        m4_row("23 before 25: a position", &[&field_of(&with(different(3), 8, 2_048)), &bad]),
        m4_row("23: field 04 of one byte", &[&field(3, &[]), &field(4, &[65])]),
        whole_row("25 before 24: a rim", &[unhex(M1).expect("hexadecimal"), three, bad.clone()].concat(), 4, 1_024),
    ]
}

/// Packs with a note, unpacked, measured and read by the bench reader.
pub fn packs() -> Vec<Row> {
    [read(), misplaced(), others()].concat()
}
