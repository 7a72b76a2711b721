//! Lists by their number of triangles, then by V, then by their numbers.

use crate::expected;
use cutborder::plain::{self, PackRooms};
use cutborder::{Place, Refusal};

#[derive(Clone)]
pub struct Model {
    pub v: u64,
    pub list: Vec<u16>,
}

impl Model {
    pub fn text(&self) -> String {
        let triangles: Vec<String> = self.list.chunks(3).map(|t| format!("{} {} {}", t[0], t[1], t[2])).collect();
        format!("V {}: {}", self.v, triangles.join(", ")).trim_end().into()
    }
}

/// The next list of as many numbers, none above `most`; false after the last.
pub fn step(list: &mut [u16], most: u16) -> bool {
    let raised = list.iter().rposition(|&n| n < most);
    let Some(at) = raised else { return false };
    list[at] += 1;
    list[at + 1..].fill(0);
    true
}

/// The first list of t triangles with this V and numbers up to V that is answered so, 0 for acceptance.
fn first(t: usize, v: u64, answer: Refusal) -> Option<Model> {
    let mut list = vec![0; 3 * t];
    loop {
        if plain::check(v, &list).err().unwrap_or(0) == answer {
            return Some(Model { v, list });
        }
        if !step(&mut list, v as u16) {
            return None;
        }
    }
}

/// The smallest list of all that is answered so. 3t numbers name at most 3t vertices: above V = 3t + 1 nothing is answered that is not
/// answered there, but for 2, which a lower V meets. A number above V is answered as V is.
fn smallest(answer: Refusal) -> Model {
    (0..).find_map(|t| (0..=3 * t as u64 + 1).find_map(|v| first(t, v, answer))).expect("a list")
}

/// 1 to 7. Gives the smallest list that is accepted.
pub fn print() -> Model {
    for n in 1..=7 {
        println!("{n} {}", smallest(n).text());
    }
    smallest(0)
}

/// What packing answers, with so many numbering entries, order entries and bytes for the pack.
fn pack(m: &Model, [numbering, order, bytes]: [usize; 3]) -> Result<usize, Refusal> {
    let (mut ns, mut os, mut out) = (vec![0; numbering], vec![0; order], vec![0; bytes]);
    let rooms = PackRooms { numbering: &mut ns, places: &mut [Place::default(); 1_024], out: &mut out, order: &mut os };
    expected::pack(m.v, &m.list, None, rooms)
}

/// 8, 22 and 11: the smallest model, and the longest buffer that is too short.
pub fn print_short(m: &Model) {
    let most = pack(m, [m.v as usize, m.list.len() / 3, 65_536]).expect("a model that is accepted");
    for (kind, n, name) in [(0, 8, "numbering entries"), (1, 22, "order entries"), (2, 11, "pack bytes")] {
        let too_short = |length: &usize| {
            let mut lengths = [most; 3];
            lengths[kind] = *length;
            pack(m, lengths) == Err(n)
        };
        let length = (0..most).rev().find(too_short).expect("a buffer that is too short");
        println!("{n} {}, {length} {name}", m.text());
    }
}
