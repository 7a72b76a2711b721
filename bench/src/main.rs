//! Speed of the service as a ratio to the second program's fast engine, both in one run.
//! `service-bench [REPEATS] [positions|building|search]`
//!
//! Nanoseconds a triangle, the median over many calls; buffers are reused and not cleared between calls. Then packs with positions, their
//! volumes and notes, the building calls, and the search for the triangle with an edge.

mod positions;
mod searching;

use compare::expected::{self, LEVEL, LIMITS};
use compare::Buffers;
use cutborder::fast::{Packer, Unpacker};
use cutborder::gen::{self, Model};
use cutborder::ops::Counts;
use cutborder::plain::{choose_at, Trace};
use cutborder::rng::Rng;
use cutborder::{volume, Level, Place};
use std::hint::black_box;
use std::time::Instant;

/// A model with a handle, one without handles and rims, one with a rim, and one with a vertex that is in all triangles.
fn grown() -> [(&'static str, Model); 4] {
    [
        ("torus", Model::of(&gen::grid(64, 64, true, true, || true))),
        ("sphere", Model::of(&gen::icosphere(20))),
        ("disc", Model::of(&gen::grid(63, 63, false, false, || true))),
        ("fan", gen::fan(1024)),
    ]
}

fn models() -> Vec<(String, Model)> {
    let mut out: Vec<(String, Model)> = grown().map(|(name, m)| (name.into(), m)).into();
    let mut rng = Rng::new(42);
    for (name, m) in grown() {
        out.push((format!("{name} shuffled"), gen::relist(&mut rng, &m)));
    }
    // As the exporters list them, and the other way round.
    for (name, m) in grown() {
        let built = searching::as_built(&m);
        out.push((format!("{name} backwards"), searching::backwards(&built)));
        out.push((format!("{name} built"), built));
    }
    // Whether the cost is linear.
    for n in [8, 16, 32] {
        out.push((format!("torus {}", 2 * n * n), Model::of(&gen::grid(n, n, true, true, || true))));
    }
    for (name, m) in filigree() {
        let shuffled = gen::relist(&mut rng, &m);
        out.push((name.into(), m));
        out.push((format!("{name} shuffled"), shuffled));
    }
    out
}

/// Flat models with long rims or many of them.
fn filigree() -> Vec<(&'static str, Model)> {
    let flat = |w: usize, h: usize| gen::grid(w, h, false, false, || true);
    // Squares left out, as told by their column and row.
    let pierced = |w: usize, h: usize, out: &dyn Fn(usize, usize) -> bool| {
        let squares = flat(w, h);
        let left: Vec<gen::Tri> = squares.chunks(2).enumerate().filter(|(n, _)| !out(n % w, n / w)).flat_map(|(_, s)| s.to_vec()).collect();
        gen::fan_split(&left)
    };
    let mut rng = Rng::new(7);
    let mut sieve = flat(50, 50);
    sieve.retain(|_| rng.below(100) >= 30);
    vec![
        ("strip", Model::of(&flat(1_500, 1))),
        ("band", Model::of(&flat(1_000, 3))),
        ("lace", pierced(1_000, 3, &|x, y| x % 2 == 1 && y == 1)),
        ("holes", pierced(63, 63, &|x, y| x % 3 == 1 && y % 3 == 1)),
        ("sieve", gen::fan_split(&sieve)),
    ]
}

/// The most places that packing takes, were there no limits.
fn most_places(level: Level, m: &Model) -> u32 {
    let chosen = choose_at(level, m.v as u32, &m.list, &mut Trace::default(), u32::MAX, u32::MAX);
    chosen.map_or(0, |c| c.book.peak_places)
}

/// Nanoseconds of one call of each of two functions: medians, the calls of the two in turn.
fn medians(repeats: usize, mut ours: impl FnMut(), mut theirs: impl FnMut()) -> (f64, f64) {
    let mut times = (Vec::new(), Vec::new());
    for i in 0..repeats + repeats / 10 {
        let t = Instant::now();
        ours();
        let a = t.elapsed().as_nanos() as f64;
        let t = Instant::now();
        theirs();
        let b = t.elapsed().as_nanos() as f64;
        if i >= repeats / 10 {
            times.0.push(a);
            times.1.push(b);
        }
    }
    times.0.sort_by(f64::total_cmp);
    times.1.sort_by(f64::total_cmp);
    (times.0[times.0.len() / 2], times.1[times.1.len() / 2])
}

fn main() {
    let repeats = std::env::args().nth(1).and_then(|a| a.parse().ok()).unwrap_or(500);
    match std::env::args().nth(2).as_deref() {
        Some("positions") => return positions::table(repeats),
        Some("building") => return buildings(repeats),
        Some("search") => return searching::searches(repeats),
        _ => {}
    }
    println!("nanoseconds a triangle, median of {repeats} calls, ours and the second program's fast engine, and their ratio");
    println!("check: refusals 1 to 7 here, linking with 1 to 6 there");
    println!("places: the peak of shortened loops, and that of full loops before; over 1,024 of them was refusal 9");
    println!(
        "{:<16} {:>6} {:>6}  {:>8} {:>8} {:>6}  {:>8} {:>8} {:>6}  {:>8} {:>8} {:>6}  {:>6} {:>6}",
        "model", "V", "T", "check", "link", "ratio", "unpack", "unpack", "ratio", "pack", "pack", "ratio", "places", "before"
    );
    let mut packer = Packer::new();
    for (name, m) in models() {
        let t = (m.list.len() / 3) as f64;
        let (ours, theirs) = medians(
            repeats,
            || black_box(compare::check(m.v as usize, black_box(&m.list))).expect("an accepted list"),
            || {
                black_box(packer.link(m.v, black_box(&m.list))).expect("an accepted list");
            },
        );
        print!("{name:<16} {:>6} {:>6}  {:>8.1} {:>8.1} {:>6.2}", m.v, t, ours / t, theirs / t, ours / theirs);
        print_ratio(unpackings(&m, None, repeats), t);
        print_ratio(packings(&m, None, repeats), t);
        println!("  {:>6} {:>6}", most_places(LEVEL, &m), most_places(Level::BASE, &m));
    }
    println!();
    positions::table(repeats);
    println!();
    buildings(repeats);
    println!();
    searching::searches(repeats);
}

/// Times of t triangles, a triangle, and their ratio.
fn print_ratio((ours, theirs): (f64, f64), t: f64) {
    print!("  {:>8.1} {:>8.1} {:>6.2}", ours / t, theirs / t, ours / theirs);
}

/// Building calls: nanoseconds of a beginning, of an operation in the mean over a model's, and of the finish; of each call the least
/// of many runs, since a model's calls take longer than a machine's other work leaves alone.
fn buildings(repeats: usize) {
    let runs = (repeats / 10).max(1);
    println!("building calls: nanoseconds a call, each the least of {runs} runs, an operation's in the mean over the model's");
    println!("{:<16} {:>6} {:>6} {:>10}  {:>8} {:>9} {:>8}", "model", "V", "T", "operations", "begin", "operation", "finish");
    for (name, m) in building_models() {
        let (ops, chosen) = expected::choose(m.v, &m.list, LIMITS).expect("a packing");
        let counts = Counts { places: chosen.book.peak_places, loops: chosen.book.peak_loops, ..chosen.book.counts };
        let mut builder = compare::Building::new(m.list.len(), 1_024, 0);
        let (mut begin, mut operations, mut finish) = (f64::MAX, vec![f64::MAX; ops.len()], f64::MAX);
        for _ in 0..runs {
            least(&mut begin, || builder.begin(black_box(counts)).expect("a beginning"));
            for (&op, time) in ops.iter().zip(&mut operations) {
                least(time, || builder.operate(black_box(op)).expect("an operation"));
            }
            least(&mut finish, || builder.finish().expect("a finish"));
        }
        let operation = operations.iter().sum::<f64>() / ops.len() as f64;
        println!("{name:<16} {:>6} {:>6} {:>10}  {begin:>8.0} {operation:>9.0} {finish:>8.0}", m.v, m.list.len() / 3, ops.len());
    }
}

/// A call's time, if it is less than before.
fn least<T>(time: &mut f64, call: impl FnOnce() -> T) {
    let t = Instant::now();
    black_box(call());
    *time = time.min(t.elapsed().as_nanos() as f64);
}

/// Models that are built one operation at a time: closed ones and one with a rim, of growing size.
fn building_models() -> Vec<(String, Model)> {
    let mut out = Vec::new();
    for n in [8, 16, 32] {
        out.push((format!("torus {}", 2 * n * n), Model::of(&gen::grid(n, n, true, true, || true))));
    }
    out.push(("disc".into(), Model::of(&gen::grid(16, 16, false, false, || true))));
    out
}

/// Unpacking the model's pack, with positions if they are given. The fast engine reads two fields; what the second program has for
/// positions is called after it.
fn unpackings(m: &Model, positions: Option<&[i32]>, repeats: usize) -> (f64, f64) {
    let pack = expected::packed(m, positions).expect("a pack");
    let (two, field) = positions::parts(&pack);
    let (mut triangles, mut expected) = (vec![0u16; m.list.len()], vec![0u16; m.list.len()]);
    let (mut places, mut expected_places) = (vec![Place::default(); 1_024], vec![Place::default(); 1_024]);
    let mut unpacker = Unpacker::new();
    medians(
        repeats,
        || {
            black_box(compare::unpack(black_box(&pack), &mut triangles, &mut places)).expect("an accepted pack");
        },
        || {
            black_box(unpacker.unpack_at(LEVEL, black_box(two), &mut expected, &mut expected_places)).expect("an accepted pack");
            assert!(field.is_none_or(|f| volume::sound(black_box(f), m.v as u32)));
        },
    )
}

/// Packing the model, with positions if they are given, with all of 1 to 11 and 23 on both sides; the fast engine has no order buffer and
/// no positions, which are written after it.
fn packings(m: &Model, positions: Option<&[i32]>, repeats: usize) -> (f64, f64) {
    let v = m.v as usize;
    let narrow = positions.map(compare::narrow);
    let (mut lent, mut expected) = (Buffers::ample(v, m.list.len() / 3), Buffers::ample(v, 0));
    let mut packer = Packer::new();
    medians(
        repeats,
        || {
            black_box(compare::pack(v, black_box(&m.list), narrow.as_deref(), lent.lend())).expect("an accepted list");
        },
        || {
            let e = &mut expected;
            let n = black_box(packer.pack_at(LEVEL, m.v, black_box(&m.list), &mut e.numbering, &mut e.places, &mut e.pack))
                .expect("an accepted list");
            if let Some(positions) = positions {
                positions::put_field(&mut e.pack[n..], black_box(positions), &e.numbering);
            }
        },
    )
}
