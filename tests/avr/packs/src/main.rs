//! Packs for the simulated chip with the answers of the second program's small reader: a line has the answer, a tab, the pack.
//!
//! `packs random SEED COUNT MOST`: packs of at most MOST bytes, good and damaged, and those at the reader's limits.
//! `packs ring MOST`: the ring with positions that has the most triangles of all whose packs have at most MOST bytes.

#[allow(dead_code)]
#[path = "../../../expected.rs"]
mod expected;

use cutborder::gen::{self, Model};
use cutborder::proto::hex;
use cutborder::reader::{self, LOOPS, PLACES};
use cutborder::rng::Rng;
use cutborder::{gen02, Refusal};
use expected::LEVEL;

fn print(pack: &[u8]) {
    let answer = reader::read(LEVEL, pack).map_or_else(|n: Refusal| format!("refused {n}"), |six| format!("six {six}"));
    println!("{answer}\t{}", hex(pack));
}

/// The pack of a model with positions, if it is accepted.
fn measured(rng: &mut Rng, m: &Model) -> Option<Vec<u8>> {
    expected::packed(m, Some(&gen02::positions(rng, m.v as usize)))
}

/// The pack of a closed model with positions.
fn closed(rng: &mut Rng) -> Vec<u8> {
    loop {
        let t = [12, 40, 150][rng.below(3)];
        let m = gen::fan_split(&gen::closed_surface(rng, t));
        if let Some(pack) = measured(rng, &m) {
            return pack;
        }
    }
}

/// A pack that states peaks above the reader's limits, one of them or both.
fn overstated(rng: &mut Rng) -> Vec<u8> {
    let mut pack = closed(rng);
    let which = rng.below(3);
    if which != 0 {
        pack[7..9].copy_from_slice(&(rng.range(PLACES + 1, 1_024) as u16).to_be_bytes());
    }
    if which != 1 {
        pack[9..11].copy_from_slice(&(rng.range(LOOPS + 1, 100) as u16).to_be_bytes());
    }
    pack
}

/// A pack with a byte that is another, most often one of the first 40.
fn changed(rng: &mut Rng) -> Vec<u8> {
    let mut pack = closed(rng);
    let n = if rng.chance(2, 3) { pack.len().min(40) } else { pack.len() };
    pack[rng.below(n)] ^= rng.range(1, 255) as u8;
    pack
}

fn random(rng: &mut Rng) -> Vec<u8> {
    match rng.below(12) {
        0..=5 => expected::random_whole_pack(rng),
        6 | 7 => closed(rng),
        8 => expected::with_note(&closed(rng), &expected::random_note(rng)),
        9 => expected::with_note(&closed(rng), &expected::unfit_note(rng)),
        10 => overstated(rng),
        _ => changed(rng),
    }
}

/// Two cones face to face on a rim of n vertices.
fn cones(n: u16) -> Model {
    Model::of(&(0..n).flat_map(|i| [[i, (i + 1) % n, n], [(i + 1) % n, i, n + 1]]).collect::<Vec<_>>())
}

fn peaks(pack: &[u8]) -> (usize, usize) {
    let counts = expected::fields(pack).expect("a pack").counts;
    (counts.places as usize, counts.loops as usize)
}

/// Packs of models whose peaks are the reader's limits, one less and one more.
fn at_limits(rng: &mut Rng) -> Vec<Vec<u8>> {
    let mut packs = Vec::new();
    for n in [PLACES - 1, PLACES, PLACES + 1] {
        let near = (n as u16 - 5..n as u16 + 5).filter_map(|k| measured(rng, &cones(k)));
        let found = packs.len();
        packs.extend(near.filter(|p| peaks(p).0 == n));
        assert!(packs.len() > found, "no cones have {n} places");
    }
    for n in [LOOPS - 1, LOOPS, LOOPS + 1] {
        let near: Vec<Model> = (0..9).filter_map(|_| gen::branches(rng, n)).collect();
        let found = packs.len();
        packs.extend(near.iter().filter_map(|m| measured(rng, m)).filter(|p| peaks(p).1 == n));
        assert!(packs.len() > found, "no branches have {n} loops");
    }
    packs
}

/// A ring of w by h squares, its vertices on circles about a circle.
fn ring(w: usize, h: usize) -> Option<Vec<u8>> {
    let turn = |i: usize, n: usize| std::f64::consts::TAU * i as f64 / n as f64;
    let mut positions = Vec::new();
    for y in 0..h {
        for x in 0..w {
            let (a, b) = (turn(x, w), turn(y, h));
            let out = 1_400.0 + 600.0 * a.cos();
            positions.extend([out * b.cos(), out * b.sin(), -600.0 * a.sin()].map(|z| z.round() as i32));
        }
    }
    expected::packed(&Model::of(&gen::grid(w, h, true, true, || true)), Some(&positions))
}

/// The largest ring whose pack has at most this many bytes; of two with as many triangles the one with more places. Three bits or more
/// a triangle and six bytes a vertex are needed.
fn largest_ring(most: usize) -> Vec<u8> {
    let mut sides: Vec<(usize, usize)> = (3..70).flat_map(|w| (w..700).map(move |h| (w, h))).collect();
    sides.retain(|(w, h)| 17 + 27 * w * h / 4 <= most);
    sides.sort_by_key(|&(w, h)| (w * h, w));
    let fits = |p: &Vec<u8>| p.len() <= most && reader::read(LEVEL, p).is_ok();
    sides.iter().rev().filter_map(|&(w, h)| ring(w, h)).find(fits).expect("a ring")
}

fn main() {
    let words: Vec<String> = std::env::args().skip(1).collect();
    let number = |i: usize| words[i].parse::<usize>().expect("a number");
    if words[0] == "ring" {
        return print(&largest_ring(number(1)));
    }
    let rng = &mut Rng::new(number(1) as u64);
    let mut packs = at_limits(rng);
    packs.retain(|p| p.len() <= number(3));
    while packs.len() < number(2) {
        let pack = random(rng);
        if pack.len() <= number(3) {
            packs.push(pack);
        }
    }
    packs.iter().for_each(|p| print(p));
}
