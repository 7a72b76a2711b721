//! Rows for grid positions (C-13): packing with them, packs with and without them, and the volume call.

use crate::antt;
use crate::expected::LIMITS;
use crate::second::{Extras, PackBuffers, Packing, UnpackBuffers, Whole};
use crate::table::{model, M1, SPLIT, USED};
use cutborder::proto::unhex;

pub type Row = (String, String);

/// Different numbers for v vertices, of both signs and in both bytes.
pub fn different(v: usize) -> Vec<i32> {
    (1..=3 * v as i32).map(|i| (37 * i * i + 611 * i) % 4_096 - 2_048).collect()
}

/// These numbers with one of them changed.
pub fn with(mut positions: Vec<i32>, i: usize, n: i32) -> Vec<i32> {
    positions[i] = n;
    positions
}

/// What a packing answers, after its name.
fn named<T>(name: &str, answer: &Result<T, u8>) -> String {
    match answer {
        Ok(_) => format!("{name}: accepted"),
        Err(n) => format!("{name}: refusal {n}"),
    }
}

/// A packing of a model with what is given beside it, in buffers with some entries more than are needed, changed so.
pub fn packing_row(name: &str, limits: (u32, u32), line: &str, extras: Extras, change: impl Fn(&mut PackBuffers)) -> Row {
    let (v, list) = model(line);
    let (v, t) = (v as usize, list.len() / 3);
    let long = 24 + 6 * v + t + extras.note.as_ref().map_or(0, |n| 3 + n.len());
    let mut buffers = PackBuffers { numbering: vec![7; v + 1], places: vec![USED; 1_024], pack: vec![5; long], order: vec![9; t + 1] };
    change(&mut buffers);
    let x = Packing::given(limits, v as u64, &list, extras, buffers);
    (named(name, &x.answer), antt::whole_packing(&x))
}

fn pack_row(name: &str, limits: (u32, u32), line: &str, positions: Option<Vec<i32>>, change: impl Fn(&mut PackBuffers)) -> Row {
    packing_row(&format!("positions: {name}"), limits, line, Extras { positions, note: None }, change)
}

pub const TRIANGLE: &str = "3 0 1 2";
pub const TETRAHEDRON: &str = "4 0 1 2 1 0 3 2 1 3 0 2 3";
pub const TURNED: &str = "4 1 0 2 0 1 3 1 2 3 2 0 3";
pub const TORUS: &str = "7 0 1 3 1 2 4 2 3 5 3 4 6 4 5 0 5 6 1 6 0 2 1 0 5 2 1 6 3 2 0 4 3 1 5 4 2 6 5 3 0 6 4";

/// Models that are packed with positions.
const PACKED: [(&str, &str); 8] = [
    ("M1", TRIANGLE),
    ("M2", TETRAHEDRON),
    ("M3", "4 0 1 2 1 0 3"),
    ("M4", "3 0 1 2 1 0 2"),
    ("M5", "6 0 1 2 3 4 5"),
    ("two pieces, vertices in the order 3 5 4 2 0 1", "6 3 5 4 2 0 1"),
    ("a tetrahedron, vertices in the order 2 0 3 1", "4 2 0 3 0 2 1 3 0 1 2 3 1"),
    ("torus of seven vertices", TORUS),
];

fn accepted() -> Vec<Row> {
    let same = |_: &mut PackBuffers| ();
    let mut rows: Vec<Row> =
        PACKED.iter().map(|&(name, line)| pack_row(name, LIMITS, line, Some(different(model(line).0 as usize)), same)).collect();
    let ends = vec![-2_048, 2_047, -1, 0, 255, 256, 2_047, -257, -2_048];
    rows.push(pack_row("the smallest and the largest", LIMITS, TRIANGLE, Some(ends), |r| r.places.push(USED)));
    rows.push(pack_row("not given", LIMITS, TRIANGLE, None, same));
    rows.push(pack_row("not given, and 9", (3, 1), "4 0 1 2 1 0 3", None, same));
    rows
}

/// 23, by a length and by a position.
fn refused() -> Vec<Row> {
    let same = |_: &mut PackBuffers| ();
    let row = |name: &str, positions: Vec<i32>| pack_row(name, LIMITS, TRIANGLE, Some(positions), same);
    let mut rows = vec![
        row("23: none", vec![]),
        row("23: one too few", different(3)[..8].to_vec()),
        row("23: one too many", [different(3), vec![0]].concat()),
        row("23: three too many", different(4)),
    ];
    for (i, n) in [(0, -2_049), (1, 2_048), (2, -2_049), (3, 2_048), (7, -2_049), (8, 2_048)] {
        rows.push(row(&format!("23: {n} at {} of vertex {}", ["x", "y", "z"][i % 3], i / 3), with(different(3), i, n)));
    }
    rows
}

/// The place of 23 among the others.
fn orders() -> Vec<Row> {
    let bad = |v| Some(with(different(v), 0, 2_048));
    let good = |v| Some(different(v));
    let none = |r: &mut PackBuffers| r.pack.clear();
    let pair = "4 0 1 2 1 0 3";
    vec![
        pack_row("5 before 23", LIMITS, "4 0 1 2 0 1 3", bad(4), |r| r.places.truncate(2)),
        pack_row("7 before 23", LIMITS, "5 0 1 2 0 3 4", bad(5), |r| r.places.truncate(2)),
        pack_row("8 before 22", LIMITS, pair, good(4), |r| {
            r.places.truncate(2);
            r.order.truncate(1);
        }),
        pack_row("8 before 23: numbering", LIMITS, TRIANGLE, bad(3), |r| r.numbering.truncate(2)),
        pack_row("8 before 23: places", LIMITS, TRIANGLE, bad(3), |r| r.places.truncate(1_023)),
        pack_row("22 before 23", LIMITS, pair, bad(4), |r| r.order.truncate(1)),
        pack_row("22 before 23: no position", LIMITS, pair, Some(vec![]), |r| r.order.clear()),
        pack_row("23 before 9", (3, 1), pair, bad(4), |_| ()),
        pack_row("23 before 10", (1_024, 1), SPLIT, bad(6), |_| ()),
        pack_row("23 before 11", LIMITS, TRIANGLE, bad(3), none),
        pack_row("9", (3, 1), pair, good(4), none),
        pack_row("10", (1_024, 1), SPLIT, good(6), none),
        pack_row("11: one byte too short", LIMITS, TRIANGLE, good(3), |r| r.pack.truncate(36)),
        pack_row("buffers just long enough", LIMITS, TRIANGLE, good(3), |r| {
            r.numbering.truncate(3);
            r.pack.truncate(37);
            r.order.truncate(1);
        }),
    ]
}

/// Packings with positions.
pub fn packings() -> Vec<Row> {
    [accepted(), refused(), orders()].concat()
}

/// A pack, with so many entries of a triangle buffer and of a place list; before the call the former holds 1 2 0 again and again.
pub fn whole_row(name: &str, bytes: &[u8], triangles: usize, places: usize) -> Row {
    let numbers = (1..=triangles).map(|i| (i % 3) as u16).collect();
    let x = Whole::new(bytes, UnpackBuffers { triangles: numbers, places: vec![USED; places] });
    let told = match (&x.unpacked, &x.measured) {
        (Ok(_), Ok(m)) => format!("{name}: accepted, {}", m.1),
        (Ok(_), Err(n)) => format!("{name}: accepted, no volume by {n}"),
        (Err(n), _) => format!("{name}: refusal {n}"),
    };
    (told, antt::whole(&x))
}

/// The second program's pack of a model with positions.
pub fn packed(line: &str, positions: &[i32]) -> Vec<u8> {
    let (v, list) = model(line);
    let lent =
        PackBuffers { numbering: vec![0; v as usize], places: vec![USED; 1_024], pack: vec![0; 500], order: vec![0; list.len() / 3] };
    let x = Packing::given(LIMITS, v, &list, Extras { positions: Some(positions.to_vec()), note: None }, lent);
    x.left.pack[..x.answer.expect("a pack")].to_vec()
}

/// A corner at 0 and one at 5 of each axis.
pub const FIVE: [i32; 12] = [0, 0, 0, 5, 0, 0, 0, 5, 0, 0, 0, 5];

/// Models without a rim, the first three with a volume that is known by hand, and models with one.
fn volumes() -> Vec<Row> {
    let cube = "8 0 2 1 1 2 3 4 5 6 5 7 6 0 1 4 1 5 4 2 6 3 3 6 7 0 4 2 2 4 6 1 3 5 3 7 5";
    let corners: Vec<i32> = (0..24).map(|i| if (i / 3) >> (i % 3) & 1 == 0 { -2_048 } else { 2_047 }).collect();
    let row = |name: &str, line: &str, positions: &[i32]| {
        let t = model(line).1.len() / 3;
        whole_row(name, &packed(line, positions), 3 * t + 3, 1_024)
    };
    vec![
        row("volume of M2, corners at 0 and at 5 of each axis: only 2 1 3 is away from 0, rows 0 5 0, 5 0 0, 0 0 5", TETRAHEDRON, &FIVE),
        row("volume of M2, the same turned inside out", TURNED, &FIVE),
        row("volume of the largest cube, six times 4,095 x 4,095 x 4,095", cube, &corners),
        row("volume of M2, different numbers", TETRAHEDRON, &different(4)),
        row("volume of M4", "3 0 1 2 1 0 2", &different(3)),
        row("volume of a torus", TORUS, &different(7)),
        row("24: a rim", TRIANGLE, &different(3)),
        row("24: two rims", "6 3 5 4 2 0 1", &different(6)),
    ]
}

/// The counts and the operations of M4, and of one that has the same list and V 2.
pub const COUNTS: [u8; 11] = [1, 0, 8, 0, 3, 0, 2, 0, 3, 0, 1];
pub const V_2: [u8; 11] = [1, 0, 8, 0, 2, 0, 2, 0, 3, 0, 1];
pub const OPERATIONS: [u8; 4] = [2, 0, 1, 0xf4];

pub fn field(tag: u8, contents: &[u8]) -> Vec<u8> {
    [&[tag], &(contents.len() as u16).to_be_bytes()[..], contents].concat()
}

pub fn field_of(positions: &[i32]) -> Vec<u8> {
    field(3, &positions.iter().flat_map(|&n| (n as i16).to_be_bytes()).collect::<Vec<u8>>())
}

/// 12: the field is not in its place, whole, once, or what follows it is no field.
fn misplaced() -> Vec<Row> {
    let three = &field_of(&different(3))[..];
    let (counts, ops) = (&COUNTS[..], &OPERATIONS[..]);
    let short = &[1, 0, 7, 0, 3, 0, 2, 0, 3, 0][..];
    let arrangements = [
        ("12: field 03 twice", vec![counts, ops, three, three]),
        ("12: field 03 before 02", vec![counts, three, ops]),
        ("12: field 03 before 01", vec![three, counts, ops]),
        ("12: field 03 and no 02", vec![counts, three]),
        ("12: field 03 cut after its tag", vec![counts, ops, &three[..1]]),
        ("12: field 03 cut in its length", vec![counts, ops, &three[..2]]),
        ("12: field 03 cut in its contents", vec![counts, ops, &three[..20]]),
        ("12: a byte after field 03", vec![counts, ops, three, &[0]]),
        ("12: tag 05 after field 03", vec![counts, ops, three, &[5, 0, 0]]),
        ("12: tag 05 for 03", vec![counts, ops, &[5], &three[1..]]),
        ("12: 02 again after field 03", vec![counts, ops, three, ops]),
        ("12: 01 has a length of 7, and field 03", vec![short, ops, three]),
        ("12 before 13: a byte after field 03", vec![&V_2, ops, three, &[0]]),
    ];
    arrangements.iter().map(|(name, parts)| whole_row(name, &parts.concat(), 4, 1)).collect()
}

/// 23, on M4: lengths, and positions out of range.
fn unfit() -> Vec<Row> {
    let all = &field_of(&different(4))[3..];
    let mut rows: Vec<Row> = [0, 12, 17, 19, 24]
        .iter()
        .map(|&n| whole_row(&format!("23: {n} bytes"), &[&COUNTS[..], &OPERATIONS, &field(3, &all[..n])].concat(), 7, 1_024))
        .collect();
    for (i, n) in [(0, -2_049), (8, -2_049), (4, 2_048), (0, 32_767), (8, -32_768)] {
        let bytes = [&COUNTS[..], &OPERATIONS, &field_of(&with(different(3), i, n))].concat();
        rows.push(whole_row(&format!("23: position {i} is {n}"), &bytes, 8, 1_025));
    }
    rows
}

/// The place of 23 and 24 among the others, and packs without the field.
fn others() -> Vec<Row> {
    let read = |hex: &str| unhex(hex).expect("hexadecimal");
    let bad = field_of(&[2_048]);
    let row = |name: &str, hex: &str, triangles: usize| whole_row(name, &[read(hex), bad.clone()].concat(), triangles, 1_024);
    vec![
        whole_row("no field 03, a rim", &read(M1), 4, 1_024),
        whole_row("no field 03, no rim", &[&COUNTS[..], &OPERATIONS].concat(), 7, 1_025),
        whole_row("nothing", &[], 4, 1),
        whole_row("13 before 23", &[&V_2[..], &OPERATIONS, &bad].concat(), 6, 1),
        whole_row("14 before 23: triangles", &[&COUNTS[..], &OPERATIONS, &bad].concat(), 5, 1_024),
        whole_row("14 before 23: places", &[&COUNTS[..], &OPERATIONS, &bad].concat(), 6, 1_023),
        row("15 before 23", "0100080003000100030001020000", 4),
        row("18 before 23", "0100080005000400060002020003e04008", 12),
        row("19 before 23", "0100080004000100030001020002edb0", 4),
        row("20 before 23", "0100080005000400050002020005e186e004db", 12),
        row("23 before 24: a rim", M1, 4),
    ]
}

/// Packs with and without positions, unpacked and measured.
pub fn packs() -> Vec<Row> {
    [volumes(), misplaced(), unfit(), others()].concat()
}
