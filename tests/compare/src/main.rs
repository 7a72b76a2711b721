//! The compiled service and the furnace's own reader compared with the second program on random input. `compare SEED SCALE`
//!
//! Prints a line for each part; stops at the first difference with the input that shows it.

mod building;
mod melting;
mod notes;
mod packings;
mod positions;
mod searching;
mod unpackings;

use compare::check;
use compare::kinds::{self, Kinds};
use cutborder::gen::{self, Model};
use cutborder::rng::Rng;
use cutborder::{plain, Place};
use std::collections::BTreeMap;
use std::time::Instant;

const MODELS: [&str; 2] = [include_str!("../../../reference/vectors/models.txt"), include_str!("../../definitions/models.txt")];

type Tally = BTreeMap<u8, usize>;

/// The models of the vectors, the second program's and our own.
fn models() -> Vec<Model> {
    let line = |l: &str| {
        let w: Vec<u64> = l.split(' ').map(|w| w.parse().expect("a number")).collect();
        Model { v: w[0], list: w[1..].iter().map(|&x| x as u16).collect() }
    };
    MODELS.iter().flat_map(|text| text.lines().filter(|l| !l.starts_with('#')).map(line)).collect()
}

/// Counts an answer, 0 for acceptance.
fn count<T>(tally: &mut Tally, answer: &Result<T, u8>) {
    *tally.entry(answer.as_ref().err().copied().unwrap_or(0)).or_default() += 1;
}

/// Each of these answers was met.
fn met(tally: &Tally, answers: &[u8]) {
    for n in answers {
        assert!(tally.get(n).copied().unwrap_or(0) > 0, "answer {n} was never met: {tally:?}");
    }
}

/// M1 to M9, as the paper has them.
fn paper() -> usize {
    let rows: [(usize, &[u16], Result<(), u8>); 9] = [
        (3, &[0, 1, 2], Ok(())),
        (4, &[0, 1, 2, 1, 0, 3, 2, 1, 3, 0, 2, 3], Ok(())),
        (4, &[0, 1, 2, 1, 0, 3], Ok(())),
        (3, &[0, 1, 2, 1, 0, 2], Ok(())),
        (6, &[0, 1, 2, 3, 4, 5], Ok(())),
        (4, &[0, 1, 2], Err(6)),
        (4, &[0, 1, 2, 0, 1, 3], Err(5)),
        (5, &[0, 1, 2, 0, 3, 4], Err(7)),
        (3, &[], Err(1)),
    ];
    for (i, (v, list, expected)) in rows.iter().enumerate() {
        assert_eq!(check(*v, list), *expected, "M{}", i + 1);
    }
    rows.len()
}

/// A list made bad in the way that one of 1 to 7 names (other refusals may come first).
fn spoil(rng: &mut Rng, m: &mut Model, way: usize) {
    let n = m.list.len();
    match way {
        1 => match rng.below(3) {
            0 => m.list.clear(),
            1 => m.list.truncate(n - 1 - rng.below(2)),
            _ => m.list = vec![1; 24_576 + 3 * rng.below(2)],
        },
        2 => m.v = [0, 1, 2, 4_097, 65_536, u64::MAX][rng.below(6)],
        3 => m.list[rng.below(n)] = (m.v + [0, 1, 60_000][rng.below(3)]).min(65_535) as u16,
        4 => {
            let t = 3 * rng.below(n / 3);
            let i = rng.below(3);
            m.list[t + i] = m.list[t + (i + 1) % 3];
        }
        5 => {
            let t = 3 * rng.below(n / 3);
            let i = rng.below(3);
            let (p, q) = (m.list[t + i], m.list[t + (i + 1) % 3]);
            m.list.extend_from_slice(&[p, q, rng.below(m.v as usize) as u16]);
        }
        6 => m.v += 1,
        _ => {
            // One vertex for two.
            let (p, q) = (rng.below(m.v as usize) as u16, rng.below(m.v as usize) as u16);
            for x in &mut m.list {
                if *x == p {
                    *x = q;
                } else if u64::from(*x) + 1 == m.v {
                    *x = p;
                }
            }
            m.v = m.v.saturating_sub(1);
        }
    }
}

fn lists(rng: &mut Rng, rounds: usize) -> (usize, Tally) {
    let mut tally = Tally::new();
    let mut n = 0;
    for i in 0..rounds {
        let max_t = [6, 20, 60, 200, 1_500][rng.below(5)];
        let mut m = if i % 8 == 0 { gen::model(rng, max_t) } else { gen::sound(rng, max_t) };
        if i % 3 != 0 && !m.list.is_empty() {
            spoil(rng, &mut m, 1 + i % 7);
        }
        let expected = plain::check(m.v, &m.list);
        assert_eq!(check(m.v as usize, &m.list), expected, "list {}", m.line());
        count(&mut tally, &expected);
        n += 1;
    }
    met(&tally, &[0, 1, 2, 3, 4, 5, 6, 7]);
    (n, tally)
}

/// A number of place records: mostly enough, sometimes fewer or more.
fn records(rng: &mut Rng) -> usize {
    match rng.below(20) {
        0 => rng.below(1_025),
        1 => 1_024 + rng.below(9),
        _ => 1_024,
    }
}

/// Place records that hold anything.
fn used_places(records: usize) -> Vec<Place> {
    vec![Place { vertex: 9, before: 9, after: 9, open: true }; records]
}

/// What happened in shortened loops: all that can.
fn shortened(kinds: &Kinds) {
    println!("    shortened loops: {kinds:?}");
    kinds::met(kinds, &kinds::SHORTENED);
}

/// Runs a part and prints its line.
fn part(name: &str, run: impl FnOnce() -> (usize, Tally)) {
    let t = Instant::now();
    let (n, tally) = run();
    println!("{name}: {n} alike, answers {tally:?}, {:.1} s", t.elapsed().as_secs_f64());
}

/// The packs that tell the furnace's own reader from the other calls, and what it answered for all packs before.
fn furnace(rng: &mut Rng, scale: usize) {
    part("models for the furnace", || melting::models(rng, 300 * scale));
    part("faults of such packs", || melting::stated(rng, 200 * scale));
    part("two faults of such packs", || melting::faults_together(rng, 30 * scale));
    part("operations for the furnace", || melting::allowed(rng, 1_000 * scale));
    part("operations that break off", || melting::broken_off(rng, 1_000 * scale));
    part("packs without edge rule and fans", || melting::free(rng, 2_000 * scale));
    part("operations of two bytes", || melting::two_bytes(rng));
    part("changed bits, and cuts", || melting::changed(rng, 10 * scale));
    melting::told();
}

fn main() {
    let args: Vec<u64> = std::env::args().skip(1).filter_map(|a| a.parse().ok()).collect();
    let [seed, scale] = args[..] else {
        eprintln!("usage: compare SEED SCALE");
        std::process::exit(2);
    };
    let mut rng = Rng::new(seed);
    let scale = scale as usize;
    println!("models of the paper: {} right", paper());
    part("lists", || lists(&mut rng, 2_000 * scale));
    part("searches", || searching::lists(&mut rng, 1_000 * scale));
    println!("    with links that are not the list's: {} answered", searching::foreign(&mut rng, 500 * scale));
    part("byte strings", || unpackings::strings(&mut rng, 5_000 * scale));
    part("unpacks", || unpackings::unpacks(&mut rng, 4_000 * scale));
    part("packs with positions", || positions::ways(&mut rng, 1_000 * scale));
    part("several refusals of such packs", || positions::faults_together(&mut rng, 4_000 * scale));
    positions::volumes(&mut rng, 500 * scale);
    part("packs with notes", || notes::ways(&mut rng, 300 * scale));
    part("several refusals of such packs", || notes::faults_together(&mut rng, 2_000 * scale));
    notes::packed_again(&mut rng, 2_000 * scale);
    furnace(&mut rng, scale);
    part("packings", || packings::random(&mut rng, 2_000 * scale));
    part("several refusals at once", || packings::faults_together(&mut rng));
    let t = Instant::now();
    let mut kinds = Kinds::new();
    let (n, lists, tally) = building::lists(&mut rng, 1_000 * scale, &mut kinds);
    println!("building: {n} calls in {lists} lists alike, answers {tally:?}, {:.1} s", t.elapsed().as_secs_f64());
    shortened(&kinds);
    let t = Instant::now();
    let (n, passed, between, tally) = building::damaged(&mut rng, 5_000 * scale);
    let took = t.elapsed().as_secs_f64();
    println!(
        "damaged states: {n} alike, {passed} pass 21, {between} have a place between two marked edges and no other fault, \
        answers {tally:?}, {took:.1} s"
    );
}
