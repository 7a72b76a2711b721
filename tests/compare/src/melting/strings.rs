//! Bytes for the furnace's reader that are hardly a pack: all operations of two bytes, packs cut and with single bits changed, and packs
//! that the service refuses with 18 or 20.

use super::melted;
use crate::{count, met, Tally};
use compare::expected::{self, contents_of, random_note, unfit_note, with_field, with_note, with_unfit_field, LEVEL};
use cutborder::gen::{self, Model, Walk};
use cutborder::gen02;
use cutborder::ops::{encode_ops, pack_bytes, Counts, Op};
use cutborder::reader::{LOOPS, PLACES};
use cutborder::rng::Rng;

/// Every two bytes of operations, with the counts of M2 and of M4 and with positions: one volume each.
pub fn two_bytes(rng: &mut Rng) -> (usize, Tally) {
    let mut tally = Tally::new();
    for [v, t, places, loops] in [[4, 4, 4, 1], [3, 2, 3, 1]] {
        let positions = contents_of(&gen02::positions(rng, v as usize));
        for ops in 0..=u16::MAX {
            let two = pack_bytes(Counts { v, t, places, loops }, &ops.to_be_bytes());
            count(&mut tally, &melted(&with_field(&two, &positions)));
        }
    }
    met(&tally, &[0, 15, 16, 17, 19]);
    assert_eq!(tally[&0], 2);
    (tally.values().sum(), tally)
}

/// A pack of at most 200 bytes with positions and a note: M2, a ring, or any.
fn small(rng: &mut Rng) -> Vec<u8> {
    loop {
        let m = match rng.below(3) {
            0 => Model::of(&gen::tetrahedron()),
            1 => Model::of(&gen::grid(3, 3, true, true, || true)),
            _ => gen02::model(rng),
        };
        let positions = gen02::positions(rng, m.v as usize);
        let note = random_note(rng);
        match expected::packed(&m, Some(&positions)) {
            Some(pack) if pack.len() < 196 => return with_note(&pack, &note[..1]),
            _ => {}
        }
    }
}

/// Packs with a bit changed, each in turn, or cut after each byte; and with two or three bits changed.
pub fn changed(rng: &mut Rng, rounds: usize) -> (usize, Tally) {
    let mut tally = Tally::new();
    for _ in 0..rounds {
        let b = small(rng);
        count(&mut tally, &melted(&b));
        (0..b.len()).for_each(|n| count(&mut tally, &melted(&b[..n])));
        let flipped = |b: &[u8], i: usize| {
            let mut b = b.to_vec();
            b[i / 8] ^= 0x80 >> (i % 8);
            b
        };
        for i in 0..8 * b.len() {
            let one = flipped(&b, i);
            let two = flipped(&one, rng.below(8 * b.len()));
            let three = flipped(&two, rng.below(8 * b.len().min(30)));
            [one, two, three].iter().for_each(|b| count(&mut tally, &melted(b)));
        }
    }
    met(&tally, &[0, 12, 13, 15, 16, 17, 19, 23, 24, 26]);
    (tally.values().sum(), tally)
}

/// A whole model of operations that the table allows. Either the edge rule may fail and the model is closed if it comes off, or the rule
/// holds and all is marked at the end, often about a vertex with two fans. Counts are as they should be, and mostly what follows.
fn unchecked(rng: &mut Rng, edge_rule: bool) -> Vec<u8> {
    let mut w = Walk::new_at(LEVEL, LOOPS as u32);
    w.book.counts.places = PLACES as u32;
    w.book.loose = !edge_rule;
    let t = [5, 20, 60, 200][rng.below(4)];
    gen::wander(rng, &mut w, t);
    if edge_rule || rng.chance(1, 5) || !w.cap_all(rng) {
        while w.go(Op::Border) {}
    }
    let two = pack_bytes(w.counts(), &encode_ops(&w.ops));
    let positions = contents_of(&gen02::positions(rng, w.counts().v as usize));
    match rng.below(8) {
        0 => two,
        1 => with_unfit_field(rng, &two),
        2 => with_note(&with_field(&two, &positions), &unfit_note(rng)),
        _ => with_field(&two, &positions),
    }
}

/// Models that neither the edge rule nor the fans are tested of, sound and not. Most volumes are of packs that the service refuses.
pub fn free(rng: &mut Rng, rounds: usize) -> (usize, Tally) {
    let mut tally = Tally::new();
    for i in 0..rounds {
        let b = if i % 2 == 0 { expected::random_free_pack(rng) } else { unchecked(rng, i % 4 == 1) };
        count(&mut tally, &melted(&b));
    }
    met(&tally, &[0, 13, 15, 16, 17, 19, 23, 24, 25, 26]);
    (tally.values().sum(), tally)
}
