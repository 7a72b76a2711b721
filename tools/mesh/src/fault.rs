//! Rules 1 to 7 on lists, in their order over the whole list, and what is at fault where one is broken.

use std::collections::{HashMap, HashSet};

pub const MOST_NUMBERS: usize = 24_576;
pub const MOST_VERTICES: u64 = 4_096;

/// A breach of one rule. Triangles and vertices are counted from 0.
#[derive(Debug, PartialEq)]
pub enum Fault {
    Count(usize),
    Vertices(u64),
    Number { triangle: usize, number: u64 },
    Twice { triangle: usize, vertex: u64 },
    Edge { from: u64, to: u64, triangles: Vec<usize>, others: Vec<usize>, same: bool },
    Unused(u64),
    Fans { vertex: u64, fans: Vec<Vec<usize>> },
}

type Triangles<'a> = &'a [[u64; 3]];

fn sides(t: [u64; 3]) -> [(u64, u64); 3] {
    [(t[0], t[1]), (t[1], t[2]), (t[2], t[0])]
}

/// From the lowest corner on: equal for triangles that are the same.
fn turned(t: [u64; 3]) -> [u64; 3] {
    let lowest = (0..3).min_by_key(|&i| t[i]).unwrap_or(0);
    [0, 1, 2].map(|i| t[(lowest + i) % 3])
}

/// The first rule that a list breaks, with everything that breaks it; none where the service accepts the list.
pub fn first_broken(v: u64, list: &[u64]) -> Option<(u8, Vec<Fault>)> {
    if list.is_empty() || list.len() > MOST_NUMBERS || list.len() % 3 != 0 {
        return Some((1, vec![Fault::Count(list.len())]));
    }
    if !(3..=MOST_VERTICES).contains(&v) {
        return Some((2, vec![Fault::Vertices(v)]));
    }
    let triangles: Vec<[u64; 3]> = list.chunks(3).map(|t| [t[0], t[1], t[2]]).collect();
    let rules = [numbers, twice, edges, unused, fans];
    let broken = (3..).zip(rules).map(|(number, rule)| (number, rule(v, &triangles)));
    broken.into_iter().find(|(_, faults)| !faults.is_empty())
}

fn numbers(v: u64, triangles: Triangles) -> Vec<Fault> {
    let corners = triangles.iter().enumerate().flat_map(|(triangle, t)| t.map(|number| (triangle, number)));
    corners.filter(|&(_, number)| number >= v).map(|(triangle, number)| Fault::Number { triangle, number }).collect()
}

fn twice(_: u64, triangles: Triangles) -> Vec<Fault> {
    let doubled = |t: [u64; 3]| sides(t).iter().find(|(p, q)| p == q).map(|&(p, _)| p);
    let found = triangles.iter().enumerate().filter_map(|(triangle, &t)| doubled(t).map(|vertex| (triangle, vertex)));
    found.map(|(triangle, vertex)| Fault::Twice { triangle, vertex }).collect()
}

/// The triangles that have each directed edge.
fn by_edge(triangles: Triangles) -> HashMap<(u64, u64), Vec<usize>> {
    let mut by_edge: HashMap<(u64, u64), Vec<usize>> = HashMap::new();
    for (n, side) in triangles.iter().enumerate().flat_map(|(n, &t)| sides(t).map(|side| (n, side))) {
        by_edge.entry(side).or_default().push(n);
    }
    by_edge
}

fn edges(_: u64, triangles: Triangles) -> Vec<Fault> {
    let by_edge = by_edge(triangles);
    let mut repeated: Vec<_> = by_edge.iter().filter(|(_, owners)| owners.len() > 1).collect();
    repeated.sort_by_key(|(_, owners)| *owners);
    let fault = |(&(from, to), owners): (&(u64, u64), &Vec<usize>)| Fault::Edge {
        from,
        to,
        triangles: owners.clone(),
        others: by_edge.get(&(to, from)).cloned().unwrap_or_default(),
        same: owners.iter().all(|&t| turned(triangles[t]) == turned(triangles[owners[0]])),
    };
    repeated.into_iter().map(fault).collect()
}

/// The triangles at each vertex, in the list's order.
fn around(v: u64, triangles: Triangles) -> Vec<Vec<usize>> {
    let mut around = vec![vec![]; v as usize];
    for (n, corner) in triangles.iter().enumerate().flat_map(|(n, &t)| t.map(|corner| (n, corner))) {
        around[corner as usize].push(n);
    }
    around
}

fn unused(v: u64, triangles: Triangles) -> Vec<Fault> {
    let around = around(v, triangles);
    (0..v).filter(|&vertex| around[vertex as usize].is_empty()).map(Fault::Unused).collect()
}

/// The vertex after another in a triangle that has it.
fn after(t: [u64; 3], vertex: u64) -> u64 {
    sides(t).iter().find(|side| side.0 == vertex).map_or(vertex, |side| side.1)
}

/// The fans of a vertex: its triangles, those together that hang together by edges at it. Each directed edge is in one triangle.
fn fans_at(vertex: u64, around: &[usize], triangles: Triangles) -> Vec<Vec<usize>> {
    let starting: HashMap<u64, usize> = around.iter().map(|&t| (after(triangles[t], vertex), t)).collect();
    let before = |t: usize| after(triangles[t], after(triangles[t], vertex));
    let next: HashMap<usize, usize> = around.iter().filter_map(|&t| starting.get(&before(t)).map(|&n| (t, n))).collect();
    let followed: HashSet<usize> = next.values().copied().collect();
    let mut starts: Vec<usize> = around.iter().copied().filter(|t| !followed.contains(t)).collect();
    starts.extend(around);
    let mut seen = HashSet::new();
    let walk = |start: usize| {
        let mut fan: Vec<usize> = std::iter::successors(Some(start), |t| next.get(t).copied()).take_while(|&t| seen.insert(t)).collect();
        fan.sort_unstable();
        fan
    };
    let mut fans: Vec<Vec<usize>> = starts.into_iter().map(walk).filter(|fan| !fan.is_empty()).collect();
    fans.sort();
    fans
}

fn fans(v: u64, triangles: Triangles) -> Vec<Fault> {
    let around = around(v, triangles);
    let fans = (0..v).map(|vertex| (vertex, fans_at(vertex, &around[vertex as usize], triangles)));
    fans.filter(|(_, fans)| fans.len() > 1).map(|(vertex, fans)| Fault::Fans { vertex, fans }).collect()
}

/// How a list's triangles and vertices are named to its reader.
pub trait Names {
    fn triangle(&self, triangle: usize) -> String;
    fn vertex(&self, vertex: u64) -> String;
}

/// A list that comes with nothing else: by their numbers.
pub struct Numbers;

impl Names for Numbers {
    fn triangle(&self, triangle: usize) -> String {
        triangle.to_string()
    }

    fn vertex(&self, vertex: u64) -> String {
        vertex.to_string()
    }
}

fn joined(triangles: &[usize], names: &impl Names) -> String {
    triangles.iter().map(|&t| names.triangle(t)).collect::<Vec<_>>().join(", ")
}

fn rule(number: u8) -> &'static str {
    match number {
        1 => "the list is empty, too long, or has not three numbers for each triangle",
        2 => "there are too few or too many vertices",
        3 => "a triangle names a vertex that there is not",
        4 => "a triangle has a vertex twice",
        5 => "two triangles run along an edge in the same direction",
        6 => "a vertex is in no triangle",
        _ => "a vertex has more than one fan: its triangles touch in it only, and not along edges",
    }
}

fn explain(fault: &Fault, names: &impl Names) -> String {
    match fault {
        Fault::Count(n) => {
            format!("the list has {n} numbers, and may have 3 to {MOST_NUMBERS}, three for each triangle ({} triangles)", n / 3)
        }
        Fault::Vertices(v) => format!("the model has {v} vertices, and may have 3 to {MOST_VERTICES}"),
        Fault::Number { triangle, number } => format!("triangle {} names vertex {number}", names.triangle(*triangle)),
        Fault::Twice { triangle, vertex } => {
            format!("triangle {} has vertex {} twice", names.triangle(*triangle), names.vertex(*vertex))
        }
        Fault::Edge { from, to, triangles, others, same } => {
            let hint = match (same, others.as_slice()) {
                (true, _) => "they are the same triangle".into(),
                (_, []) => "none runs the other way: one of them may be turned over".into(),
                (_, others) => format!("the other way runs {}", joined(others, names)),
            };
            let (from, to) = (names.vertex(*from), names.vertex(*to));
            format!("the edge from vertex {from} to vertex {to} is in triangles {}; {hint}", joined(triangles, names))
        }
        Fault::Unused(vertex) => format!("vertex {} is in no triangle", names.vertex(*vertex)),
        Fault::Fans { vertex, fans } => {
            let fans_named: Vec<String> = fans.iter().map(|fan| joined(fan, names)).collect();
            format!("vertex {} has {} fans: triangles {}", names.vertex(*vertex), fans.len(), fans_named.join(" and "))
        }
    }
}

/// Lines that say what is at fault; the last counts those that are not shown.
pub fn lines(number: u8, faults: &[Fault], names: &impl Names, most: usize) -> Vec<String> {
    let mut lines = vec![format!("the service will refuse this with {number}: {}", rule(number))];
    lines.extend(faults.iter().take(most).map(|fault| explain(fault, names)));
    if faults.len() > most {
        lines.push(format!("and {} more of these; --all shows them", faults.len() - most));
    }
    lines
}
