//! Many models through one builder, one after the other, with refused calls among them. `many SEED MODELS`
//!
//! Each answer is compared with that of the second program's book; nothing but beginnings touches the builder between two models.

use compare::expected::{self, LEVEL};
use compare::kinds::{self, Kinds};
use compare::Building;
use cutborder::gen;
use cutborder::ops::{Counts, Op};
use cutborder::rng::Rng;
use std::collections::BTreeMap;
use std::time::Instant;

fn any_op(rng: &mut Rng) -> Op {
    match rng.below(8) {
        0 => Op::New,
        1 => Op::Forward,
        2 => Op::Backward,
        3 => Op::Border,
        4 => Op::Split(rng.below(6) as u32),
        5 => Op::Close,
        6 => Op::Union(rng.below(3) as u32, rng.below(5) as u32),
        _ => Op::Start,
    }
}

/// What was answered, each number how often.
type Tally = BTreeMap<u8, u64>;

/// One model through the builder: each answer is the book's.
fn model(rng: &mut Rng, walk: &gen::Walk, builder: &mut Building, tally: &mut Tally, met: &mut Kinds) {
    let mut note = |n: u8| *tally.entry(n).or_default() += 1;
    let c = walk.counts();
    if rng.chance(1, 10) {
        assert_eq!(builder.begin(Counts { v: 2, ..c }), Err(13));
        note(13);
    }
    let mut book = expected::begin(c, 24_576, 1_024).expect("a beginning");
    builder.begin(c).expect("a beginning");
    for &o in &walk.ops {
        if rng.chance(1, 4) {
            // Another operation, if it is one that is refused.
            let other = any_op(rng);
            let n = book.test(other);
            if n != 0 {
                assert_eq!(builder.operate(other), Err(n));
                note(n);
            }
        }
        kinds::note(met, &book, o);
        assert_eq!(builder.operate(o), book.op(o));
        note(0);
    }
    let expected = book.finish();
    assert_eq!(builder.finish(), expected);
    note(expected.err().unwrap_or(0));
}

fn main() {
    let args: Vec<u64> = std::env::args().skip(1).filter_map(|a| a.parse().ok()).collect();
    let [seed, models] = args[..] else {
        eprintln!("usage: many SEED MODELS");
        std::process::exit(2);
    };
    let (mut rng, start) = (Rng::new(seed), Instant::now());
    let mut builder = Building::new(24_576, 1_024, 9);
    let (mut tally, mut met) = (Tally::new(), Kinds::new());
    // Some hundred operation lists, each used again and again with other refused calls among them.
    let size = |rng: &mut Rng| if rng.chance(1, 20) { rng.range(10, 60) } else { rng.range(1, 6) };
    let sizes: Vec<_> = (0..500).map(|_| size(&mut rng)).collect();
    let walks: Vec<gen::Walk> = sizes.iter().map(|&n| gen::walk_at(LEVEL, &mut rng, n, 100)).collect();
    for _ in 0..models {
        let walk = &walks[rng.below(walks.len())];
        model(&mut rng, walk, &mut builder, &mut tally, &mut met);
    }
    println!("{models} models through one builder, answers {tally:?}, {met:?}, {:.0} s", start.elapsed().as_secs_f64());
}
