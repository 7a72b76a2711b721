//! Packs of closed models for the furnace's reader, each with one fault that is named: in the counts and in the bytes of the operations.
//! And with two faults, of which the first in the order decides.

use super::melted;
use crate::{count, met, Tally};
use compare::expected::{self, contents_of, random_note, unfit_note, LIMITS, UNFIT};
use compare::kinds::{self, Kinds};
use cutborder::fields::Fields;
use cutborder::gen::{self, Model};
use cutborder::ops::{BitWriter, Counts};
use cutborder::rng::Rng;
use cutborder::{gen02, Refusal};
use std::collections::BTreeMap;

/// A pack in parts that can be changed.
#[derive(Clone)]
struct Parts {
    counts: Counts,
    ops: Vec<u8>,
    positions: Option<Vec<i32>>,
    note: Option<Vec<u8>>,
    /// What follows the fields.
    after: Vec<u8>,
}

impl Parts {
    fn bytes(&self) -> Vec<u8> {
        let positions = self.positions.as_deref().map(contents_of);
        let f = Fields { counts: self.counts, codes: None, ops: &self.ops, positions: positions.as_deref(), note: self.note.as_deref() };
        [f.bytes(), self.after.clone()].concat()
    }
}

/// A fault: its name, the refusal, and the change.
type Fault = (&'static str, Refusal, fn(&mut Rng, &mut Parts));

/// Counts out of their ranges, and over the reader's limits; some have a low byte that would do.
const COUNTS: [Fault; 26] = [
    ("13: V 0", 13, |_, p| p.counts.v = 0),
    ("13: V 2", 13, |_, p| p.counts.v = 2),
    ("13: V 4,097", 13, |_, p| p.counts.v = 4_097),
    ("13: V 65,535", 13, |_, p| p.counts.v = 65_535),
    ("13: T 0", 13, |_, p| p.counts.t = 0),
    ("13: T 8,193", 13, |_, p| p.counts.t = 8_193),
    ("13: T 65,535", 13, |_, p| p.counts.t = 65_535),
    ("13: no place", 13, |_, p| p.counts.places = 0),
    ("13: 2 places", 13, |_, p| p.counts.places = 2),
    ("13: 1,025 places", 13, |_, p| p.counts.places = 1_025),
    ("13: 65,535 places", 13, |_, p| p.counts.places = 65_535),
    ("13: no loop", 13, |_, p| p.counts.loops = 0),
    ("13: 101 loops", 13, |_, p| p.counts.loops = 101),
    ("13: 256 loops more", 13, |_, p| p.counts.loops += 256),
    ("26: 201 places", 26, |_, p| p.counts.places = 201),
    ("26: 202 places", 26, |_, p| p.counts.places = 202),
    ("26: 255 places", 26, |_, p| p.counts.places = 255),
    ("26: 256 places", 26, |_, p| p.counts.places = 256),
    ("26: 256 places more", 26, |_, p| p.counts.places += 256),
    ("26: 1,024 places", 26, |_, p| p.counts.places = 1_024),
    ("26: any number over 200", 26, |rng, p| p.counts.places = rng.range(201, 1_024) as u32),
    ("26: 13 loops", 26, |_, p| p.counts.loops = 13),
    ("26: 14 loops", 26, |_, p| p.counts.loops = 14),
    ("26: 100 loops", 26, |_, p| p.counts.loops = 100),
    ("26: any number over 12", 26, |rng, p| p.counts.loops = rng.range(13, 100) as u32),
    ("26: 201 places and 13 loops", 26, |_, p| (p.counts.places, p.counts.loops) = (201, 13)),
];

/// Counts that are not those of the operations, and other bytes than theirs.
const OPERATIONS: [Fault; 23] = [
    ("15: no byte", 15, |_, p| p.ops.clear()),
    ("15: a byte less", 15, |_, p| p.ops.truncate(p.ops.len() - 1)),
    ("15: any number of bytes less", 15, |rng, p| p.ops.truncate(rng.below(p.ops.len()))),
    ("16: new for the start", 16, |_, p| p.ops[0] &= 0x1f),
    ("16: a start after the start", 16, |_, p| p.ops[0] |= 0x1c),
    ("17: a vertex less", 17, |_, p| p.counts.v -= 1),
    ("17: 3 vertices", 17, |_, p| p.counts.v = 3),
    ("17: a triangle less", 17, |_, p| p.counts.t -= 1),
    ("17: a triangle", 17, |_, p| p.counts.t = 1),
    ("17: a place less", 17, |_, p| p.counts.places -= 1),
    ("17: 3 places", 17, |_, p| p.counts.places = 3),
    ("17: a loop less", 17, |_, p| p.counts.loops -= 1),
    ("17: a loop", 17, |_, p| p.counts.loops = 1),
    ("19: a vertex more", 19, |_, p| p.counts.v += 1),
    ("19: 4,096 vertices", 19, |_, p| p.counts.v = 4_096),
    ("19: a place more", 19, |_, p| p.counts.places += 1),
    ("19: 200 places", 19, |_, p| p.counts.places = 200),
    ("19: a loop more", 19, |_, p| p.counts.loops += 1),
    ("19: 12 loops", 19, |_, p| p.counts.loops = 12),
    ("19: a zero more", 19, |_, p| p.ops.push(0)),
    ("19: a byte more", 19, |rng, p| p.ops.push(rng.next() as u8)),
    ("19: several bytes more", 19, |rng, p| p.ops.extend([0; 9].map(|_| rng.next() as u8))),
    ("19: the last fill bit", 19, |_, p| *p.ops.last_mut().expect("a byte") |= 1),
];

/// A fault for each refusal, in the order of the tests, such that no two undo each other. The last is that there are no positions.
const ORDER: [(Refusal, fn(&mut Rng, &mut Parts)); 10] = [
    (12, |rng, p| p.after.push(rng.next() as u8)),
    (13, |rng, p| if rng.chance(1, 2) { p.counts.v = 4_097 } else { p.counts.t = 0 }),
    (26, |rng, p| match rng.chance(1, 2) {
        true => p.counts.places = rng.range(201, 1_024) as u32,
        false => p.counts.loops = rng.range(13, 100) as u32,
    }),
    (15, |rng, p| p.ops.truncate(rng.below(p.ops.len()))),
    (16, |rng, p| if rng.chance(1, 2) { p.ops[0] &= 0x1f } else { p.ops[0] |= 0x1c }),
    (17, |_, p| p.counts.places -= 1),
    (19, |_, p| p.counts.v += 1),
    (23, |rng, p| UNFIT[rng.below(UNFIT.len())].1(rng, p.positions.as_mut().expect("positions"))),
    (25, |rng, p| p.note = Some(unfit_note(rng))),
    (24, |_, p| p.positions = None),
];

/// The pack of a model with positions, half of them with a note, if all counts can be one less and one more and there is a fill bit.
fn parts(rng: &mut Rng, m: &Model) -> Option<Parts> {
    let (ops, chosen) = expected::choose(m.v, &m.list, LIMITS).ok()?;
    let mut bits = BitWriter::default();
    ops.iter().for_each(|&o| bits.put_op(o));
    let book = chosen.book;
    let counts = Counts { v: m.v as u32, t: book.triangles.len() as u32, places: book.peak_places, loops: book.peak_loops };
    let fits = counts.v < 4_096 && (4..200).contains(&counts.places) && (2..12).contains(&counts.loops) && bits.bits % 8 != 0;
    let positions = Some(gen02::positions(rng, m.v as usize));
    let note = rng.chance(1, 2).then(|| random_note(rng));
    fits.then_some(Parts { counts, ops: bits.bytes, positions, note, after: Vec::new() })
}

/// The same of a closed model.
fn closed(rng: &mut Rng) -> Parts {
    loop {
        let (t, loops) = ([40, 150, 400][rng.below(3)], rng.range(2, 11));
        let m = if rng.chance(1, 4) { gen::branches(rng, loops) } else { Some(gen::fan_split(&gen::closed_surface(rng, t))) };
        if let Some(parts) = m.and_then(|m| parts(rng, &m)) {
            return parts;
        }
    }
}

/// The same of one with a rim.
fn with_rim(rng: &mut Rng) -> Parts {
    loop {
        let m = gen::sound(rng, 100);
        if let Some(parts) = parts(rng, &m).filter(|p| melted(&p.bytes()) == Err(24)) {
            return parts;
        }
    }
}

/// Every fault of counts and operations, each alone.
pub fn stated(rng: &mut Rng, rounds: usize) -> (usize, Tally) {
    let (mut ways, mut tally) = (Kinds::new(), Tally::new());
    for _ in 0..rounds {
        let sound = closed(rng);
        count(&mut tally, &melted(&sound.bytes()));
        for (way, refusal, change) in COUNTS.iter().chain(&OPERATIONS) {
            let mut p = sound.clone();
            change(rng, &mut p);
            let told = melted(&p.bytes());
            assert_eq!(told, Err(*refusal), "{way}, pack {:02x?}", p.bytes());
            kinds::count(&mut ways, way);
            count(&mut tally, &told);
        }
    }
    println!("    ways: {ways:?}");
    kinds::met(&ways, &COUNTS.map(|(way, ..)| way));
    kinds::met(&ways, &OPERATIONS.map(|(way, ..)| way));
    met(&tally, &[0, 13, 15, 16, 17, 19, 26]);
    (tally.values().sum(), tally)
}

/// Two faults of a pack, the later one made first. The refusals, or none if they cannot be together or are of single operations.
fn pair(rng: &mut Rng, i: usize, j: usize) -> Option<(Refusal, Refusal)> {
    let (one, other) = (ORDER[i], ORDER[j]);
    let rim = other.0 == 24 && (one.0 == 23 || rng.chance(1, 2));
    if other.0 <= 17 && (15..=17).contains(&one.0) {
        return None;
    }
    let mut p = if rim { with_rim(rng) } else { closed(rng) };
    if !rim {
        other.1(rng, &mut p);
    }
    one.1(rng, &mut p);
    assert_eq!(melted(&p.bytes()), Err(one.0), "{} with {}, pack {:02x?}", one.0, other.0, p.bytes());
    Some((one.0, other.0))
}

/// Every two faults whose order 02 tells.
pub fn faults_together(rng: &mut Rng, rounds: usize) -> (usize, Tally) {
    let (mut pairs, mut tally) = (BTreeMap::new(), Tally::new());
    for _ in 0..rounds {
        for (i, j) in (0..ORDER.len()).flat_map(|i| (i + 1..ORDER.len()).map(move |j| (i, j))) {
            if let Some((one, other)) = pair(rng, i, j) {
                *pairs.entry((one, other)).or_insert(0) += 1;
                count(&mut tally, &Err::<(), _>(one));
            }
        }
    }
    println!("    pairs: {pairs:?}");
    // All but three of 45: of 15 to 17 the first operation at fault decides.
    assert_eq!(pairs.len(), 42);
    (tally.values().sum(), tally)
}
