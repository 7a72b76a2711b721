//! Single operations for the furnace's reader, at cut-borders that random operations lead to: what the table forbids (16), what exceeds a
//! stated count (17), and what breaks off (15), each way named and met. Half of the cut-borders break the edge rule.

use super::melted;
use crate::{count, met, Tally};
use compare::expected::LEVEL;
use compare::kinds::{self, Kinds};
use cutborder::book::Book;
use cutborder::gen::{self, Walk};
use cutborder::ops::{pack_bytes, BitWriter, Counts, Op};
use cutborder::reader::{LOOPS, PLACES};
use cutborder::rng::Rng;

/// The counts that leave most to the operations.
const AMPLE: Counts = Counts { v: 4_096, t: 8_192, places: PLACES as u32, loops: LOOPS as u32 };

/// What forbids an operation.
const FORBIDDEN: [&str; 24] = [
    "16: new, no loop lives",
    "16: forward, no loop lives",
    "16: backward, no loop lives",
    "16: border, no loop lives",
    "16: split, no loop lives",
    "16: close, no loop lives",
    "16: union, no loop lives",
    "16: start, a loop lives",
    "16: forward with two places",
    "16: forward with three places, all open",
    "16: forward, the edge after f is marked",
    "16: backward with two places",
    "16: backward with three places, all open",
    "16: backward, the edge into e is marked",
    "16: split 0",
    "16: split 1, forward leads there",
    "16: split k - 2, backward leads there",
    "16: split beyond k - 2",
    "16: close with two places",
    "16: close, an edge of three is marked",
    "16: close with four places or more",
    "16: union 0",
    "16: union, no such loop",
    "16: union, no such place",
];

/// 16 goes before 17 at one operation.
const EXCEEDS_TOO: &str = "16: any of these, and 17";

/// Which of them it is.
fn forbidden(book: &Book, op: Op) -> &'static str {
    let Some(ring) = book.live.first() else { return FORBIDDEN[op.code() as usize] };
    let k = ring.len();
    let way = match op {
        Op::Start => 7,
        Op::Forward if k == 2 => 8,
        Op::Forward => 9 + usize::from(!ring[1].open),
        Op::Backward if k == 2 => 11,
        Op::Backward => 12 + usize::from(!ring[k - 1].open),
        Op::Split(0) => 14,
        Op::Split(i) if i as usize + 2 > k => 17,
        Op::Split(i) => if i == 1 && ring[1].open { 15 } else { 16 },
        Op::Close => 18 + (k - 2).min(2),
        Op::Union(0, _) => 21,
        Op::Union(p, _) if p as usize >= book.live.len() => 22,
        Op::Union(..) => 23,
        Op::New | Op::Border => panic!("always allowed"),
    };
    FORBIDDEN[way]
}

/// What an operation exceeds: its code, and the count, of V, T, places and loops in turn. A start never exceeds the others: 13 leaves room
/// for it, and where T triangles are built and no loop lives, the model is complete.
const EXCEEDS: [(&str, u32, usize); 12] = [
    ("17: new, vertices", 0, 0),
    ("17: new, triangles", 0, 1),
    ("17: new, places", 0, 2),
    ("17: forward, triangles", 1, 1),
    ("17: backward, triangles", 2, 1),
    ("17: split, triangles", 4, 1),
    ("17: split, places", 4, 2),
    ("17: split, loops", 4, 3),
    ("17: close, triangles", 5, 1),
    ("17: union, triangles", 6, 1),
    ("17: union, places", 6, 2),
    ("17: start, vertices", 7, 0),
];

/// Counts that an allowed operation exceeds by one, in the given one alone; none if they would be out of range, or exceeded before.
fn lacking(book: &Book, op: Op, which: usize) -> Option<Counts> {
    let (places, loops) = book.sizes_after(op);
    let new = if op == Op::Start { 3 } else { u32::from(op == Op::New) };
    let before = [book.used, book.triangles.len() as u32, book.peak_places, book.peak_loops];
    let after = [book.used + new, before[1] + u32::from(op != Op::Border), places as u32, loops as u32];
    let mut stated = [0, 1, 2, 3].map(|i| after[i].max(before[i]));
    stated[which] = stated[which].checked_sub(1).filter(|n| *n >= before[which])?;
    let [v, t, places, loops] = stated;
    Some(Counts { v, t, places, loops }).filter(Counts::in_range)
}

/// The pack of some operations, the last of which is a union's code alone, so that nothing else is read.
fn pack_of(counts: Counts, ops: &[Op], last: Op) -> Vec<u8> {
    let mut bits = BitWriter::default();
    ops.iter().for_each(|&o| bits.put_op(o));
    bits.put_op(last);
    bits.put(Op::Union(0, 0).code(), 3);
    pack_bytes(counts, &bits.bytes)
}

/// A cut-border within the reader's limits.
fn cut_border(rng: &mut Rng) -> Walk {
    let mut w = Walk::new_at(LEVEL, LOOPS as u32);
    w.book.counts = AMPLE;
    w.book.loose = rng.chance(1, 2);
    let t = [0, 3, 10, 40, 300][rng.below(5)];
    gen::wander(rng, &mut w, t);
    w
}

/// Operations about each condition of the table, and others.
fn operations(rng: &mut Rng, book: &Book) -> Vec<Op> {
    let k = book.live.first().map_or(3, Vec::len) as u32;
    let waits = book.live.len().saturating_sub(1) as u32;
    let p = rng.range(1, waits.max(1) as usize) as u32;
    let places = book.live.get(p as usize).map_or(1, Vec::len) as u32;
    let mut out = vec![Op::New, Op::Forward, Op::Backward, Op::Border, Op::Close, Op::Start, gen::random_op(rng)];
    out.extend([0, 1, 2, k / 2, k.saturating_sub(3), k - 2, k - 1, k, 256, 1_023].map(Op::Split));
    let ends = [(0, 0), (p, 0), (p, places - 1), (p, places), (p, 256), (p, 1_023), (waits + 1, 0), (127, 0)];
    out.extend(ends.map(|(p, j)| Op::Union(p, j)));
    out
}

/// One operation at a cut-border, with ample counts and such as it exceeds.
fn tried(w: &Walk, op: Op, ways: &mut Kinds, tally: &mut Tally) {
    let mut ask = |counts: Counts, refusal: u8, way: Option<&'static str>| {
        let b = pack_of(counts, &w.ops, op);
        assert_eq!(melted(&b), Err(refusal), "{op:?} with {counts:?}, pack {b:02x?}");
        way.into_iter().for_each(|way| kinds::count(ways, way));
        count(tally, &Err::<(), _>(refusal));
    };
    let book = &w.book;
    match book.test(op) {
        16 => {
            let way = forbidden(book, op);
            ask(AMPLE, 16, Some(way));
            if !book.live.is_empty() {
                let t = book.triangles.len() as u32;
                ask(Counts { v: book.used, t, places: book.peak_places, loops: book.peak_loops }, 16, Some(EXCEEDS_TOO));
            }
        }
        17 => ask(AMPLE, 17, None),
        _ => {
            ask(AMPLE, 15, None);
            for (way, _, which) in EXCEEDS.iter().filter(|(_, code, _)| *code == op.code()) {
                if let Some(counts) = lacking(book, op, *which) {
                    ask(counts, 17, Some(way));
                }
            }
        }
    }
}

/// Every operation, allowed or not, at many cut-borders.
pub fn allowed(rng: &mut Rng, rounds: usize) -> (usize, Tally) {
    let (mut ways, mut tally) = (Kinds::new(), Tally::new());
    for _ in 0..rounds {
        let w = cut_border(rng);
        operations(rng, &w.book).into_iter().for_each(|op| tried(&w, op, &mut ways, &mut tally));
    }
    println!("    ways: {ways:?}");
    kinds::met(&ways, &FORBIDDEN);
    kinds::met(&ways, &EXCEEDS.map(|(way, ..)| way));
    kinds::met(&ways, &[EXCEEDS_TOO]);
    met(&tally, &[15, 16, 17]);
    (tally.values().sum(), tally)
}

/// Where operations break off.
const BROKEN: [&str; 5] =
    ["15: between two operations", "15: inside a code", "15: inside a split's i", "15: inside a union's p", "15: inside a union's j"];

/// Operations that break off at the end of a byte, in an index or before.
pub fn broken_off(rng: &mut Rng, rounds: usize) -> (usize, Tally) {
    let (mut ways, mut tally) = (Kinds::new(), Tally::new());
    for _ in 0..rounds {
        let w = cut_border(rng);
        let mut bits = BitWriter::default();
        w.ops.iter().for_each(|&o| bits.put_op(o));
        let from = bits.bits;
        let split = rng.chance(1, 2);
        bits.put_op(if split { Op::Split(rng.below(1_024) as u32) } else { Op::Union(rng.below(128) as u32, rng.below(1_024) as u32) });
        for bytes in from.div_ceil(8)..bits.bits.div_ceil(8) {
            let b = pack_bytes(AMPLE, &bits.bytes[..bytes]);
            assert_eq!(melted(&b), Err(15), "pack {b:02x?}");
            let way = match (8 * bytes - from, split) {
                (0, _) => 0,
                (1..3, _) => 1,
                (_, true) => 2,
                (3..10, _) => 3,
                _ => 4,
            };
            kinds::count(&mut ways, BROKEN[way]);
            count(&mut tally, &Err::<(), _>(15));
        }
    }
    println!("    ways: {ways:?}");
    kinds::met(&ways, &BROKEN);
    (tally.values().sum(), tally)
}
