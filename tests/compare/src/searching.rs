//! The search for the triangle with a directed edge compared with the second program's, in lists that pass 1 to 4, edges that occur
//! several times included.

use crate::{count, met, models, spoil, Tally};
use compare::expected::loose_list;
use compare::{link, search, Links, LINKS};
use cutborder::across::across;
use cutborder::gen::{self, Model};
use cutborder::plain;
use cutborder::rng::Rng;

/// How often the edges that are searched for occur: never, once, twice, three times or more.
type Times = [usize; 4];

/// Searches with links that are not the list's, each entry anything or what another list left: any answer does, and `search` holds it to 0
/// or 1 and to what it writes.
pub fn foreign(rng: &mut Rng, rounds: usize) -> usize {
    let mut links: Box<Links> = Box::new([0; LINKS]);
    for i in 0..rounds {
        let m = sound(rng, 60);
        if i % 2 == 0 {
            links.iter_mut().for_each(|x| *x = rng.next() as u16);
        }
        let list = &m.list[..rng.below(m.list.len() + 1)];
        for _ in 0..20 {
            let (p, q) = edge(rng, &m);
            search(list, &links, p, q);
        }
        link(m.v as usize, &m.list, &mut links).expect("a sound list");
    }
    20 * rounds
}

/// Lists of all kinds, linked or refused with 1 to 4, and searched: how many searches, and the answers of linking. Prints how often the
/// edges occurred.
pub fn lists(rng: &mut Rng, rounds: usize) -> (usize, Tally) {
    let (mut tally, mut times, mut n) = (Tally::new(), [0; 4], 0);
    let known = models();
    for i in 0..rounds + known.len() {
        let m = if i < known.len() { known[i].clone() } else { listed(rng, i) };
        n += searched(rng, &m, &mut tally, &mut times);
    }
    met(&tally, &[0, 1, 2, 3, 4]);
    println!("    searched for edges that occur never, once, twice and more often: {times:?}");
    assert!(times.iter().all(|&n| n > 0), "a kind was never met: {times:?}");
    (n, tally)
}

/// A sound model that is not empty.
fn sound(rng: &mut Rng, max_t: usize) -> Model {
    std::iter::repeat_with(|| gen::sound(rng, max_t)).find(|m| !m.list.is_empty()).expect("a model")
}

/// A list of few or many vertices in which edges occur often, seldom or once; now and then one that some of 1 to 4 refuse.
fn listed(rng: &mut Rng, i: usize) -> Model {
    let v = [3, 4, 5, 8, 30, 400, 4_096][rng.below(7)];
    let t = match rng.below(200) {
        0 => 8_192,
        1 => 8_193,
        _ => [1, 2, 5, 20, 100, 600][rng.below(6)],
    };
    let mut m = if rng.chance(1, 6) { sound(rng, 200) } else { Model { v: v as u64, list: loose_list(rng, v, t) } };
    if i % 8 == 0 {
        // In several ways at once, too: the lowest number is answered.
        (1..=4).rev().for_each(|way| if rng.chance(2, 5) { spoil(rng, &mut m, way) });
    }
    m
}

/// A list linked and searched for edges that it has, their opposites, edges that it has not, and such as no list has.
fn searched(rng: &mut Rng, m: &Model, tally: &mut Tally, times: &mut Times) -> usize {
    let before: Box<Links> = Box::new([rng.next() as u16; LINKS]);
    let mut links = before.clone();
    // 5 to 7 are not asked.
    let expected = plain::check(m.v, &m.list).or_else(|n| if n > 4 { Ok(()) } else { Err(n) });
    assert_eq!(link(m.v as usize, &m.list, &mut links), expected, "linking {}", m.line());
    count(tally, &expected);
    if expected.is_err() {
        assert!(links == before, "a refusal changed the links: {}", m.line());
        return 0;
    }
    for _ in 0..200 {
        let (p, q) = edge(rng, m);
        assert_eq!(search(&m.list, &links, p, q), across(&m.list, p, q), "{p}→{q} in {}", m.line());
        let has = |t: &&[u16]| (0..3).any(|i| t[i] == p && t[(i + 1) % 3] == q);
        times[m.list.chunks(3).filter(has).take(3).count()] += 1;
    }
    200
}

fn edge(rng: &mut Rng, m: &Model) -> (u16, u16) {
    let any = |rng: &mut Rng| match rng.below(20) {
        0 => rng.next() as u16,
        1 => m.v as u16,
        _ => rng.below(m.v as usize) as u16,
    };
    let (t, i) = (3 * rng.below(m.list.len() / 3), rng.below(3));
    let (p, q) = (m.list[t + i], m.list[t + (i + 1) % 3]);
    match rng.below(8) {
        0 => (any(rng), any(rng)),
        1 => (q, p),
        2 => (p, p),
        3 => (p, any(rng)),
        _ => (p, q),
    }
}
