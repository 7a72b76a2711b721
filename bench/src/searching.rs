//! The cost of a search for the triangle with a directed edge, from the end of the list, on lists that are written as they are built,
//! forwards and backwards (the exporters' case), and shuffled.

use crate::{grown, medians};
use compare::expected::{self, LIMITS};
use compare::{link, search, LINKS};
use cutborder::across::across;
use cutborder::gen::{self, Model};
use cutborder::rng::Rng;
use std::hint::black_box;

/// A model with its triangles in the order in which packing it builds them.
pub fn as_built(m: &Model) -> Model {
    let (_, chosen) = expected::choose(m.v, &m.list, LIMITS).expect("a packing");
    let triangle = |&n: &u16| m.list[3 * usize::from(n)..][..3].to_vec();
    Model { v: m.v, list: chosen.order.iter().flat_map(triangle).collect() }
}

/// The same triangles, the last first.
pub fn backwards(m: &Model) -> Model {
    Model { v: m.v, list: m.list.rchunks(3).flatten().copied().collect() }
}

/// The edges that a packing of the list looks across, in its order: of each current edge the opposite.
fn looked_for(m: &Model) -> Vec<(u16, u16)> {
    let (ops, chosen) = expected::choose(m.v, &m.list, LIMITS).expect("a packing");
    let mut old = vec![0; chosen.number.len()];
    chosen.number.iter().enumerate().for_each(|(v, &n)| old[usize::from(n)] = v as u16);
    let mut book = expected::begin(chosen.book.counts, m.list.len(), 1_024).expect("a beginning");
    let mut edges = Vec::new();
    for op in ops {
        if let Some(ring) = book.live.first() {
            edges.push((old[usize::from(ring[1].vertex)], old[usize::from(ring[0].vertex)]));
        }
        book.op(op).expect("an operation");
    }
    edges
}

/// What a search looks at, in the mean: corners of the edge's first vertex, from the end as far as the one that is found; triangles of
/// the whole list, from the end; and from the beginning.
fn looked_at(m: &Model, edges: &[(u16, u16)]) -> [f64; 3] {
    let t = m.list.len() / 3;
    let mut corners = vec![Vec::new(); m.v as usize];
    m.list.iter().enumerate().for_each(|(c, &v)| corners[usize::from(v)].push(c / 3));
    let mut sums = [0; 3];
    for &(p, q) in edges {
        let found = across(&m.list, p, q).map(|a| a.triangle);
        let last = found.unwrap_or(0);
        sums[0] += corners[usize::from(p)].iter().filter(|&&n| n >= last).count();
        sums[1] += t - last;
        sums[2] += found.map_or(t, |n| n + 1);
    }
    sums.map(|n| n as f64 / edges.len() as f64)
}

/// Prints a line for each model and listing.
pub fn searches(repeats: usize) {
    let runs = (repeats / 10).max(1);
    println!("searches: for the edges that a packing of the list looks across, in its order; nanoseconds, the median of {runs} runs");
    println!("link: refusals 1 to 4 and the links of the list, a triangle; second: the second program's, through the list from its end");
    println!("corners: how many a search looks at here; end, begin: how many triangles one through the list, from its end or beginning");
    println!(
        "{:<18} {:>6} {:>6} {:>8}  {:>6} {:>7} {:>8} {:>7}  {:>7} {:>8} {:>8}",
        "model", "V", "T", "searches", "link", "search", "second", "ratio", "corners", "end", "begin"
    );
    let mut rng = Rng::new(42);
    for (name, m) in grown() {
        let built = as_built(&m);
        let back = backwards(&built);
        let shuffled = gen::relist(&mut rng, &m);
        for (how, m) in [("built", built), ("backwards", back), ("shuffled", shuffled)] {
            line(&format!("{name} {how}"), &m, runs);
        }
    }
}

fn line(name: &str, m: &Model, runs: usize) {
    let (v, t) = (m.v as usize, m.list.len() / 3);
    let edges = looked_for(m);
    let mut links = Box::new([0; LINKS]);
    let (linking, _) = medians(runs, || link(v, black_box(&m.list), &mut links).expect("a list that passes 1 to 4"), || ());
    let all = |find: &dyn Fn(u16, u16)| edges.iter().for_each(|&(p, q)| find(p, q));
    let ours = |p, q| _ = black_box(search(black_box(&m.list), &links, p, q));
    let theirs = |p, q| _ = black_box(across(black_box(&m.list), p, q));
    let (a, b) = medians(runs, || all(&ours), || all(&theirs));
    let (n, [corners, end, begin]) = (edges.len() as f64, looked_at(m, &edges));
    println!(
        "{name:<18} {v:>6} {t:>6} {n:>8}  {:>6.1} {:>7.1} {:>8.1} {:>7.3}  {corners:>7.1} {end:>8.1} {begin:>8.1}",
        linking / t as f64,
        a / n,
        b / n,
        a / b
    );
}
