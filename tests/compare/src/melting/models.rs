//! Packs of sound models for the furnace's reader: closed ones and such with rims, at the reader's limits, below and above.

use super::melted;
use crate::{count, met, Tally};
use compare::expected::{self, random_note, with_note, LIMITS};
use compare::kinds::{self, Kinds};
use cutborder::fields::Fields;
use cutborder::gen::{self, Model, Tri};
use cutborder::ops::{Counts, Op};
use cutborder::rng::Rng;
use cutborder::{gen02, Refusal};

/// What the packs are that have a volume.
const VOLUMES: [&str; 14] = [
    "a volume",
    "with a note",
    "with a split",
    "with a union",
    "of several pieces",
    "zero",
    "below zero",
    "over 40 bits",
    "199 places",
    "200 places",
    "11 loops",
    "12 loops",
    "8,192 triangles",
    "4,096 vertices",
];

/// What those are that have none, beside the ways that all calls refuse.
const REFUSED: [&str; 8] = [
    "24: with a note",
    "24: 256 rims",
    "26: 201 places",
    "26: 13 loops",
    "26: places and loops",
    "26: with a note",
    "26: no positions",
    "26: a rim",
];

/// Two cones face to face on n vertices.
fn cones(n: usize) -> Model {
    let n = n as u16;
    Model::of(&(0..n).flat_map(|i| [[i, (i + 1) % n, n], [(i + 1) % n, i, n + 1]]).collect::<Vec<_>>())
}

/// Closed surfaces side by side.
fn pieces(rng: &mut Rng) -> Model {
    let mut all: Vec<Tri> = Vec::new();
    for _ in 0..rng.range(2, 4) {
        let from = all.iter().flatten().max().map_or(0, |v| v + 1);
        all.extend(gen::closed_surface(rng, 60).iter().map(|t| t.map(|v| v + from)));
    }
    gen::fan_split(&all)
}

/// A ring of w by h squares.
fn ring(w: usize, h: usize) -> Model {
    Model::of(&gen::grid(w, h, true, true, || true))
}

/// Positions for a ring of 64 by 64 squares that goes 16 times round, so that its volume counts as often.
fn wound() -> Vec<i32> {
    let at = |i: usize| {
        let turn = std::f64::consts::TAU * (i % 64) as f64 / 64.0;
        let out = 1_024 + (1_023.0 * turn.cos()) as i32;
        let (x, y) = [(1, 0), (0, 1), (-1, 0), (0, -1)][i / 64 % 4];
        [x * out, y * out, (1_023.0 * turn.sin()) as i32]
    };
    (0..4_096).flat_map(at).collect()
}

/// A model whose packing has so many loops at most.
fn loops(rng: &mut Rng, n: u32) -> Model {
    loop {
        let m = gen::branches(rng, n as usize).expect("a model with loops");
        if expected::choose(m.v, &m.list, LIMITS).is_ok_and(|(_, chosen)| chosen.book.peak_loops == n) {
            return m;
        }
    }
}

/// Models of all families, with positions; the first are the largest and those at the reader's limits.
fn model(rng: &mut Rng, i: usize) -> (Model, Vec<i32>) {
    let m = match (i, rng.below(8)) {
        (0, _) => return (ring(64, 64), wound()),
        (1, _) => Model::of(&gen::icosphere(20)),
        (2..5, _) => cones(195 + i),
        (5..8, _) => loops(rng, 6 + i as u32),
        (8, _) => gen::branches(rng, 60).expect("a model with loops and places"),
        // Single triangles, each with a rim.
        (9, _) => Model { v: 768, list: (0..768).collect() },
        (_, 0) => cones(rng.range(190, 205)),
        (_, 1) => {
            let n = rng.range(2, 15) as u32;
            loops(rng, n)
        }
        (_, 2) => {
            let m = ring(rng.range(3, 12), rng.range(3, 60));
            gen::relist(rng, &m)
        }
        (_, 3) => {
            let t = [200, 600, 2_000][rng.below(3)];
            gen::fan_split(&gen::closed_surface(rng, t))
        }
        (_, 4) => pieces(rng),
        (_, 5) => gen::sound(rng, 600),
        _ => gen02::model(rng),
    };
    let positions = gen02::positions(rng, m.v as usize);
    (m, positions)
}

/// The names of those that hold.
fn holding<const N: usize>(names: [&'static str; N], holds: [bool; N]) -> Vec<&'static str> {
    names.into_iter().zip(holds).filter(|(_, holds)| *holds).map(|(name, _)| name).collect()
}

/// What a pack with this volume is.
fn with_volume(f: &Fields, six: i64) -> Vec<&'static str> {
    let Counts { v, t, places, loops } = f.counts;
    let ops = gen::read_ops(f.ops);
    let holds = [
        true,
        f.note.is_some(),
        ops.iter().any(|o| matches!(o, Op::Split(_))),
        ops.iter().any(|o| matches!(o, Op::Union(..))),
        ops.iter().filter(|o| **o == Op::Start).count() > 1,
        six == 0,
        six < 0,
        six.abs() >> 40 != 0,
        places == 199,
        places == 200,
        loops == 11,
        loops == 12,
        t == 8_192,
        v == 4_096,
    ];
    holding(VOLUMES, holds)
}

/// What a pack with this refusal is.
fn without_volume(f: &Fields, refusal: Refusal) -> Vec<&'static str> {
    let Counts { v, t, places, loops } = f.counts;
    let (noted, over) = (f.note.is_some(), refusal == 26);
    let holds = [
        refusal == 24 && noted,
        refusal == 24 && (v, t) == (768, 256) && f.positions.is_some(),
        places == 201 && loops <= 12,
        loops == 13 && places <= 200,
        places > 200 && loops > 12,
        over && noted,
        over && f.positions.is_none(),
        over && gen::read_ops(f.ops).contains(&Op::Border),
    ];
    holding(REFUSED, holds)
}

/// A model's packs, with positions and a note and without.
fn packs(rng: &mut Rng, m: &Model, positions: &[i32], seen: &mut Kinds, tally: &mut Tally) {
    let note = random_note(rng);
    for given in [Some(positions), None] {
        let Some(pack) = expected::packed(m, given) else { return };
        for b in [with_note(&pack, &note), pack] {
            let f = expected::fields(&b).expect("a pack");
            let told = melted(&b);
            let kinds = told.map_or_else(|n| without_volume(&f, n), |six| with_volume(&f, six));
            kinds.into_iter().for_each(|kind| kinds::count(seen, kind));
            count(tally, &told);
        }
    }
}

pub fn models(rng: &mut Rng, rounds: usize) -> (usize, Tally) {
    let (mut seen, mut tally) = (Kinds::new(), Tally::new());
    for i in 0..rounds {
        let (m, positions) = model(rng, i);
        packs(rng, &m, &positions, &mut seen, &mut tally);
    }
    println!("    {seen:?}");
    kinds::met(&seen, &VOLUMES);
    kinds::met(&seen, &REFUSED);
    met(&tally, &[0, 24, 26]);
    assert_eq!(tally.len(), 3, "another answer for a sound model");
    (tally.values().sum(), tally)
}
