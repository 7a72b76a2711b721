//! Packs with a note, changed in every way that 12 and 25 refuse, each way named and met. Unpacking and the volume call take no notice of
//! a note that fits, and the bench reader hands it back.

use crate::melting::comes_to;
use crate::positions::{arranged, buffers_for, each_way, parts, refused, Arrangement};
use crate::unpackings::{buffers, read, unpacked, Lent};
use crate::{count, met, Tally};
use compare::expected::{self, random_note, unfit_note, with_note, Way, UNFIT_NOTES};
use compare::kinds::{self, Kinds};
use compare::{bench, narrow, pack_whole, Buffers};
use cutborder::fields::Fields;
use cutborder::gen::{self, Model};
use cutborder::rng::Rng;
use cutborder::{gen02, volume};

/// The pack of a triangle with a note of one byte.
const PACK: [u8; 20] = [1, 0, 8, 0, 3, 0, 1, 0, 3, 0, 1, 2, 0, 2, 0xed, 0xb0, 4, 0, 1, 7];

/// Ways to change a note that leave it one that fits: its lengths, its bytes, and such as look like fields.
pub const FIT_NOTES: [Way<u8>; 10] = [
    ("note: any", |_, _| {}),
    ("note: 1 byte", |_, note| note.truncate(1)),
    ("note: 63 bytes", |_, note| note.resize(63, 0)),
    ("note: 64 bytes", |_, note| note.resize(64, 9)),
    ("note: a zero", |_, note| *note = vec![0]),
    ("note: zeros", |_, note| note.fill(0)),
    ("note: 64 zeros", |_, note| *note = vec![0; 64]),
    ("note: a field 04", |_, note| *note = vec![4, 0, 2, 4, 0]),
    ("note: ends in a field 04", |_, note| *note = vec![9, 0, 4, 0, 1, 4]),
    ("note: a pack", |_, note| *note = PACK.to_vec()),
];

/// Ways for 12: field 04 is not in its place, whole, once, or something follows it. The third part is empty if there are no positions.
const MISPLACED: [Arrangement<4>; 25] = [
    ("12: field 04 twice", |_, [counts, ops, three, four]| [counts, ops, three, four, four].concat()),
    ("12: field 04 before 02", |_, [counts, ops, three, four]| [counts, four, ops, three].concat()),
    ("12: field 04 twice, once before 02", |_, [counts, ops, three, four]| [counts, four, ops, three, four].concat()),
    ("12: field 04 before 01", |_, [counts, ops, three, four]| [four, counts, ops, three].concat()),
    ("12: field 04 alone", |_, [_, _, _, four]| four.to_vec()),
    ("12: field 04 and no 02", |_, [counts, _, three, four]| [counts, three, four].concat()),
    ("12: field 04 and no 01", |_, [_, ops, three, four]| [ops, three, four].concat()),
    ("12: field 04 cut after its tag", |_, [counts, ops, three, four]| [counts, ops, three, &four[..1]].concat()),
    ("12: field 04 cut in its length", |_, [counts, ops, three, four]| [counts, ops, three, &four[..2]].concat()),
    ("12: field 04 cut after its length", |_, [counts, ops, three, four]| [counts, ops, three, &four[..3]].concat()),
    ("12: field 04 cut in its contents", |rng, [counts, ops, three, four]| {
        [counts, ops, three, &four[..rng.range(3, four.len() - 1)]].concat()
    }),
    ("12: field 04 cut by a byte", |_, [counts, ops, three, four]| [counts, ops, three, &four[..four.len() - 1]].concat()),
    ("12: field 04 states a byte less", |_, [counts, ops, three, four]| [counts, ops, three, &[4, 0, four[2] - 1], &four[3..]].concat()),
    ("12: field 04 states 256 bytes more", |_, [counts, ops, three, four]| [counts, ops, three, &[4, 1], &four[2..]].concat()),
    ("12: a byte after field 04", |rng, [counts, ops, three, four]| [counts, ops, three, four, &[rng.below(256) as u8]].concat()),
    ("12: a zero after field 04", |_, [counts, ops, three, four]| [counts, ops, three, four, &[0]].concat()),
    ("12: an empty field 04 after 04", |_, [counts, ops, three, four]| [counts, ops, three, four, &[4, 0, 0]].concat()),
    ("12: an empty field 05 after 04", |_, [counts, ops, three, four]| [counts, ops, three, four, &[5, 0, 0]].concat()),
    ("12: an empty field 03 after 04", |_, [counts, ops, three, four]| [counts, ops, three, four, &[3, 0, 0]].concat()),
    ("12: 01 again after field 04", |_, [counts, ops, three, four]| [counts, ops, three, four, counts].concat()),
    ("12: 02 again after field 04", |_, [counts, ops, three, four]| [counts, ops, three, four, ops].concat()),
    ("12: another tag for 04", |rng, [counts, ops, three, four]| {
        [counts, ops, three, &[[0, 1, 2, 5, 0x84][rng.below(5)]], &four[1..]].concat()
    }),
    ("12: an empty field 04 before 02", |_, [counts, ops, three, _]| [counts, &[4, 0, 0], ops, three].concat()),
    ("12: an empty field 04 twice", |_, [counts, ops, three, _]| [counts, ops, three, &[4, 0, 0], &[4, 0, 0]].concat()),
    ("12: a byte after an empty field 04", |_, [counts, ops, three, _]| [counts, ops, three, &[4, 0, 0, 1]].concat()),
];

/// The same where there are positions.
const MISPLACED_TOO: [Arrangement<4>; 5] = [
    ("12: field 04 before 03", |_, [counts, ops, three, four]| [counts, ops, four, three].concat()),
    ("12: field 04 before and after 03", |_, [counts, ops, three, four]| [counts, ops, four, three, four].concat()),
    ("12: an empty field 04 before 03", |_, [counts, ops, three, _]| [counts, ops, &[4, 0, 0], three].concat()),
    ("12: field 03 twice, then 04", |_, [counts, ops, three, four]| [counts, ops, three, three, four].concat()),
    ("12: tag 03 for 04", |_, [counts, ops, three, four]| [counts, ops, three, &[3], &four[1..]].concat()),
];

/// 12 goes before 25, and so does 23; 25 goes before 24.
const UNFIT_TOO: [&str; 2] = ["12: any of these, and 25", "23, and 25"];
const RIM_TOO: &str = "25: any of these, and a rim";

/// What was met with packs without positions, what with positions, and all answers.
#[derive(Default)]
struct Seen {
    ways: [Kinds; 2],
    tally: Tally,
}

/// A pack without a note, followed by notes that fit: unpacking, the volume call and the furnace's reader answer and write as without one,
/// and the bench reader hands the note back if unpacking accepts.
fn unnoticed(rng: &mut Rng, fit: &[Way<u8>], b: &[u8], before: &Lent, ways: &mut Kinds, tally: &mut Tally) {
    let without = read(b, before);
    assert!(without.note.is_empty(), "a note of pack {b:02x?}");
    let note = random_note(rng);
    for (way, note) in each_way(rng, fit, &note) {
        let noted = with_note(b, &note);
        let with = read(&noted, before);
        assert!(with.is_as(&without) && with.melted == without.melted, "{way}: pack {noted:02x?}");
        assert_eq!(with.note, if with.unpacked.0.is_ok() { &note[..] } else { &[] }, "{way}: pack {noted:02x?}");
        kinds::count(ways, way);
        count(tally, &with.unpacked.0);
    }
}

/// An accepted pack without a note, with field 04 in every wrong arrangement, now and then with a note that 25 would refuse.
fn misplaced(rng: &mut Rng, b: &[u8], ways: &mut Kinds, tally: &mut Tally) {
    let unfit = rng.chance(1, 4);
    let note = if unfit { vec![9; rng.range(65, 255)] } else { random_note(rng) };
    let four = with_note(&[], &note);
    let [counts, ops, three] = parts(b);
    let mut changed = arranged(rng, &MISPLACED, [counts, ops, three, &four]);
    if !three.is_empty() {
        changed.extend(arranged(rng, &MISPLACED_TOO, [counts, ops, three, &four]));
    }
    changed.iter().for_each(|(way, b)| refused(way, 12, b, ways, tally));
    if unfit {
        kinds::count(ways, UNFIT_TOO[0]);
    }
}

/// A model's packs with and without positions, with notes of every kind.
fn changed(rng: &mut Rng, m: &Model, seen: &mut Seen) {
    let positions = gen02::positions(rng, m.v as usize);
    let Some(two) = expected::packed(m, None) else { return };
    let whole = expected::packed(m, Some(&positions)).expect("a pack");
    let tally = &mut seen.tally;
    for (b, ways) in [&two, &whole].into_iter().zip(&mut seen.ways) {
        unnoticed(rng, &FIT_NOTES, b, &buffers_for(b), ways, tally);
        misplaced(rng, b, ways, tally);
        let (note, rims) = (random_note(rng), unpacked(b, &buffers_for(b)).0.expect("a model").rims);
        for (way, note) in each_way(rng, &UNFIT_NOTES, &note) {
            refused(way, 25, &with_note(b, &note), ways, tally);
            if rims > 0 {
                kinds::count(ways, RIM_TOO);
            }
        }
    }
    let both = with_note(&expected::with_unfit_field(rng, &two), &unfit_note(rng));
    refused(UNFIT_TOO[1], 23, &both, &mut seen.ways[1], tally);
}

/// Every way to be refused with 12 or 25 that has to do with notes, and every kind of note that fits, each with positions and without.
pub fn ways(rng: &mut Rng, rounds: usize) -> (usize, Tally) {
    let mut seen = Seen::default();
    for i in 0..rounds {
        let m = if i == 0 { Model::of(&gen::grid(64, 64, true, true, || true)) } else { gen02::model(rng) };
        changed(rng, &m, &mut seen);
    }
    println!("    ways without positions and with: {:?}", seen.ways);
    for ways in &seen.ways {
        kinds::met(ways, &FIT_NOTES.map(|(way, _)| way));
        kinds::met(ways, &UNFIT_NOTES.map(|(way, _)| way));
        kinds::met(ways, &MISPLACED.map(|(way, _)| way));
        kinds::met(ways, &[UNFIT_TOO[0], RIM_TOO]);
    }
    kinds::met(&seen.ways[1], &MISPLACED_TOO.map(|(way, _)| way));
    kinds::met(&seen.ways[1], &[UNFIT_TOO[1]]);
    met(&seen.tally, &[0, 12, 23, 25]);
    (seen.tally.values().sum(), seen.tally)
}

/// A pack that any of 13 to 20 and 23 refuses, or none: a note that fits changes no answer, and one that does not is 25 where unpacking
/// would accept.
fn followed(rng: &mut Rng, tally: &mut Tally) {
    let b = if rng.chance(1, 2) { expected::random_pack(rng, 40) } else { expected::random_whole_pack(rng) };
    let Ok(f) = expected::fields(&b) else { return };
    let b = Fields { note: None, ..f }.bytes();
    let before = buffers(rng, &b);
    let way = rng.below(FIT_NOTES.len());
    unnoticed(rng, &FIT_NOTES[way..=way], &b, &before, &mut Kinds::new(), &mut Tally::new());
    let noted = with_note(&b, &unfit_note(rng));
    let (without, with) = (read(&b, &before), read(&noted, &before));
    let unpacked = without.unpacked.0;
    assert_eq!(with.unpacked.0.err(), Some(unpacked.err().unwrap_or(25)), "pack {noted:02x?}");
    assert!(unpacked.is_ok() || with.is_as(&without) && with.note == without.note, "pack {noted:02x?}");
    assert_eq!(with.melted, Err(comes_to(25, without.melted)), "pack {noted:02x?}");
    count(tally, &with.unpacked.0);
}

/// Packs with more than one fault.
pub fn faults_together(rng: &mut Rng, rounds: usize) -> (usize, Tally) {
    let mut tally = Tally::new();
    (0..rounds).for_each(|_| followed(rng, &mut tally));
    met(&tally, &[13, 14, 15, 16, 17, 18, 19, 20, 23, 25]);
    (tally.values().sum(), tally)
}

/// What the bench reader hands back, packed again with the positions of the pack, is the pack. Whether it has a note; none if it is
/// refused.
fn again(b: &[u8]) -> Option<bool> {
    let f = expected::fields(b).ok()?;
    let mut lent = Buffers::ample(4_096, f.counts.t as usize);
    let mut triangles = vec![0; 3 * f.counts.t as usize];
    let (answer, note) = bench(b, &mut triangles, &mut lent.places);
    let v = answer.ok()?.v;
    let positions: Option<Vec<i32>> = f.positions.map(|p| (0..v as u16).flat_map(|i| volume::at(p, i)).collect());
    let given = Some(note).filter(|note| !note.is_empty());
    let size = pack_whole(v as usize, &triangles, positions.as_deref().map(narrow).as_deref(), given, lent.lend());
    assert!(size == Ok(b.len()) && lent.pack[..b.len()] == *b, "{size:?}: packed again, pack {b:02x?}");
    Some(given.is_some())
}

/// A pack is the only one of its model, positions and note.
pub fn packed_again(rng: &mut Rng, rounds: usize) {
    let accepted: Vec<bool> = (0..rounds).filter_map(|_| again(&expected::random_whole_pack(rng))).collect();
    let noted = accepted.iter().filter(|&&noted| noted).count();
    println!("accepted packs, read by the bench and packed again: {} are what they were, {noted} with a note", accepted.len());
    assert!(noted > rounds / 20 && accepted.len() - noted > rounds / 20);
}
