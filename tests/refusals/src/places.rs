//! 9. A start makes three places, no later operation more than one: over n places take n - 1 triangles, one of them the start. No more
//! than these, each glued to those before it by one edge, lie in a disc with a vertex at each of its n + 1 corners: so V is n + 1. Lowest
//! in numbers would be the fan 0 1 2, 0 2 3, .., whose packing marks two edges in a row and stays at n places.

use crate::expected;
use crate::lists::{step, Model};
use cutborder::plain;
use cutborder::Refusal;

/// The fan of vertex 0 with a triangle less, and that one.
fn fan_and(n: u16, last: [u16; 3]) -> Model {
    let fan = (1..n - 1).map(|i| [0, i, i + 1]);
    Model { v: u64::from(n) + 1, list: fan.chain([last]).flatten().collect() }
}

/// What is held to be the smallest that has over n places.
fn claimed(n: u16) -> Model {
    fan_and(n, [1, n, 2])
}

/// What packing answers within n places.
fn pack(m: &Model, n: u16) -> Refusal {
    plain::check(m.v, &m.list).and_then(|()| expected::choose(m.v, &m.list, (n.into(), 100))).err().unwrap_or(0)
}

/// The first list of t triangles with this V that has over n places and goes on from these triangles, which pass 3 to 5.
fn first(begun: &mut Model, t: usize, n: u16) -> Option<Model> {
    let length = begun.list.len();
    if length == 3 * t {
        return (pack(begun, n) == 9).then(|| begun.clone());
    }
    let mut next = [0; 3];
    while step(&mut next, begun.v as u16 - 1) {
        begun.list.extend(next);
        // 6 and 7 may still be met.
        let found = matches!(plain::check(begun.v, &begun.list), Ok(()) | Err(6 | 7)).then(|| first(begun, t, n)).flatten();
        begun.list.truncate(length);
        if found.is_some() {
            return found;
        }
    }
    None
}

/// Whether it is the smallest within a limit that can be searched. Any list, renumbered so that it begins with 0 1 2, is answered alike.
fn search(n: u16) {
    let begun = |v| Model { v, list: vec![0, 1, 2] };
    let found = (1..n as usize).find_map(|t| (3..=u64::from(n) + 1).find_map(|v| first(&mut begun(v), t, n))).expect("a list");
    assert_eq!(found.text(), claimed(n).text(), "over {n} places");
}

pub fn print() {
    (4..=5).for_each(search);
    // The triangles that may stand last and are lower.
    for last in [[0, 1_023, 1_024], [0, 1_024, 1], [1, 0, 1_024]] {
        assert_eq!(pack(&fan_and(1_024, last), 1_024), 0, "{last:?}");
    }
    let m = claimed(1_024);
    assert_eq!(pack(&m, 1_024), 9);
    println!("9 {}", m.text());
}
