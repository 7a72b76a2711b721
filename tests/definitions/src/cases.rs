//! Random cases: models, damaged lists, packs, damaged packs, lists of calls, looks across an edge, models and packs with positions and a
//! note, and packs for the furnace's reader.

use crate::antt;
use crate::expected::{self, LIMITS};
use crate::prelude::prelude;
use crate::second::{Building, Extras, Melting, PackBuffers, Packing, UnpackBuffers, Unpacking, Whole};
use cutborder::gen::{self, Model};
use cutborder::rng::Rng;
use cutborder::{gen02, Place};

/// A buffer of about n entries, now and then one too short, filled with one value.
fn length(rng: &mut Rng, n: usize) -> usize {
    match rng.below(12) {
        0 => n.saturating_sub(1),
        1 => rng.below(n + 1),
        2..=5 => n,
        _ => n + rng.below(5),
    }
}

fn places(rng: &mut Rng) -> Vec<Place> {
    let p = Place { vertex: rng.below(9) as u16, before: 1, after: 2, open: rng.chance(1, 2) };
    vec![p; length(rng, 1_024)]
}

/// Draws until there are at most n numbers, bytes or calls: a walk now and then goes on for long, and the prover has a limit.
fn short<T, U>(n: usize, mut draw: impl FnMut() -> T, items: impl Fn(&T) -> &Vec<U>) -> T {
    loop {
        let x = draw();
        if items(&x).len() <= n {
            return x;
        }
    }
}

fn limits(rng: &mut Rng) -> (u32, u32) {
    if rng.chance(1, 4) {
        (rng.range(3, 9) as u32, rng.range(1, 3) as u32)
    } else {
        LIMITS
    }
}

/// Buffers for a model whose pack has so many bytes.
fn lent(rng: &mut Rng, m: &Model, size: usize) -> PackBuffers {
    PackBuffers {
        numbering: vec![7; length(rng, m.v.min(5_000) as usize)],
        places: places(rng),
        pack: vec![5; length(rng, size)],
        order: vec![9; length(rng, m.list.len() / 3)],
    }
}

fn packed_size(m: &Model) -> usize {
    expected::packed(m, None).map_or(20, |p| p.len())
}

pub fn packing(rng: &mut Rng, max_t: usize) -> Packing {
    let m = short(300, || gen::model(rng, max_t), |m| &m.list);
    let limits = limits(rng);
    let lent = lent(rng, &m, packed_size(&m));
    Packing::new(limits, m.v, &m.list, lent)
}

/// Positions for v vertices; now and then their number or one of them is wrong.
fn positions(rng: &mut Rng, v: usize) -> Vec<i32> {
    let mut all = gen02::positions(rng, v);
    match rng.below(12) {
        0 => all.truncate(rng.below(all.len() + 1)),
        1 => all.push(0),
        2 if v > 0 => {
            let i = rng.below(all.len());
            all[i] = [-2_049, 2_048, 32_767, -32_768, 65_536][rng.below(5)];
        }
        _ => {}
    }
    all
}

/// A note; now and then it is too short or too long.
fn note(rng: &mut Rng) -> Vec<u8> {
    let n = [0, 1, 1, 2, 9, 30, 63, 64, 64, 65, 100][rng.below(11)];
    (0..n).map(|_| rng.next() as u8).collect()
}

/// A packing with positions and a note, or now and then without.
pub fn whole_packing(rng: &mut Rng, max_t: usize) -> Packing {
    let m = short(150, || if rng.chance(1, 6) { gen::model(rng, max_t) } else { gen02::model(rng) }, |m| &m.list);
    let limits = limits(rng);
    let positions = rng.chance(3, 4).then(|| positions(rng, m.v.min(60) as usize));
    let note = rng.chance(2, 3).then(|| note(rng));
    let extras = Extras { positions, note };
    let lent = lent(rng, &m, packed_size(&m) + extras.size());
    Packing::given(limits, m.v, &m.list, extras, lent)
}

pub fn unpacking(rng: &mut Rng, max_t: usize) -> Unpacking {
    let bytes = short(150, || expected::random_pack(rng, max_t), |b| b);
    let t = expected::stated_triangles(&bytes);
    // A count near the limits is tried; its buffers are not: they would only be long.
    let n = if t > 400 { 5 } else { length(rng, 3 * t) };
    let lent = UnpackBuffers { triangles: vec![6; n], places: places(rng) };
    Unpacking::new(&bytes, lent)
}

/// A pack that may have positions and a note, unpacked, measured and read by the bench reader.
pub fn whole(rng: &mut Rng) -> Whole {
    let bytes = short(220, || expected::random_whole_pack(rng), |b| b);
    let t = expected::stated_triangles(&bytes);
    let n = if t > 400 { 5 } else { length(rng, 3 * t) };
    let triangles = (0..n).map(|i| (i % 5) as u16).collect();
    let places = places(rng);
    Whole::new(&bytes, UnpackBuffers { triangles, places })
}

/// A pack read by the furnace's own reader: one of any kind, or one with operations that the edge rule may refuse.
pub fn melting(rng: &mut Rng) -> Melting {
    let any = rng.chance(1, 3);
    let draw = || if any { expected::random_whole_pack(rng) } else { expected::random_free_pack(rng) };
    Melting::new(&short(260, draw, |b| b))
}

pub fn building(rng: &mut Rng, max_t: usize) -> Building {
    Building::new(&short(300, || expected::random_calls(rng, max_t), |c| c))
}

/// A list that passes 1 to 4, in which edges may occur more than once, and a look across every edge that it could have, and some more.
pub fn looks(rng: &mut Rng) -> String {
    let v = rng.range(3, 6);
    let t = rng.range(1, 14);
    let list = expected::loose_list(rng, v, t);
    let ends = 0..=v as u16;
    let rows: Vec<String> = ends.clone().flat_map(|p| ends.clone().map(move |q| (p, q))).map(|(p, q)| antt::look(&list, p, q)).collect();
    format!("{} ∷ []", rows.join("\n    ∷ "))
}

/// A theorem for each case, so that a refusal names it.
pub fn module(seed: u64, count: usize) -> String {
    let (uses, unfolding) = prelude(&[]);
    let mut out = format!("-- Cases of seed {seed}, drawn by tests/definitions.\n-- Assumes nothing.\n{uses}");
    let mut rng = Rng::new(seed);
    for i in 0..count {
        let mut r = rng.fork();
        let max_t = [4, 8, 14, 20][r.below(4)];
        let (kind, right, row) = match i % 7 {
            0 => ("PackRow", "pack_right", antt::packing(&packing(&mut r, max_t))),
            1 => ("UnpackRow", "unpack_right", antt::unpacking(&unpacking(&mut r, max_t))),
            2 => ("CallRow", "calls_right", antt::building(&building(&mut r, max_t))),
            3 => ("WholePackRow", "whole_pack_right", antt::whole_packing(&whole_packing(&mut r, max_t))),
            4 => ("WholeRow", "whole_right", antt::whole(&whole(&mut r))),
            5 => ("MeltRow", "melt_right", antt::melting(&melting(&mut r))),
            _ => ("List LookRow", "all_right look_right", looks(&mut r)),
        };
        out += &format!("\nabbrev row{i} : {kind}\nrow{i} =\n    {row}\n\npub case{i} : T ({right} row{i})\n{unfolding}\ncase{i} = tt\n");
    }
    out
}
