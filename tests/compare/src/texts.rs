//! What the programs must write: the second program's answers as their lines. `stored` and `programs` take it from here.

use crate::{expected, Buffers};
use cutborder::{plain, Answer, Place, Refusal, MAX_INPUT};

/// What the programs say on standard error of a text that is no model, and of a pack that has no note or no positions to tell.
pub const NO_MODEL: &str = "no model: V and the vertex numbers are expected, decimal, with white space between\n";
pub const NO_NOTE: &str = "note: the pack is refused: there is no note\n";
pub const NO_POSITIONS: &str = "unpack: the pack has no positions\n";

type Reading<A> = fn(&[u8], &mut [u16], &mut [Place]) -> Result<A, Refusal>;

/// A program's input as a pack: one that is too long counts as an empty one, for 12 refuses both.
fn pack_of(input: &[u8]) -> &[u8] {
    if input.len() > MAX_INPUT { &[] } else { input }
}

/// Buffers of the most triangles and places.
fn lent() -> (Vec<u16>, Vec<Place>) {
    (vec![0; 24_576], vec![Place::default(); 1_024])
}

/// What a call answers to a program's input, and the triangles that it wrote, as text.
fn answered<A>(input: &[u8], call: Reading<A>, text: impl FnOnce(A, &[u16]) -> String) -> String {
    let (mut triangles, mut places) = lent();
    let answer = call(pack_of(input), &mut triangles, &mut places);
    answer.map_or_else(refused, |a| text(a, &triangles))
}

fn refused(n: Refusal) -> String {
    format!("refused {n}\n")
}

/// All that the program `unpack` must print for some bytes.
pub fn unpacked(input: &[u8]) -> String {
    answered(input, expected::unpack, |a: Answer, triangles| {
        let head = format!("model {} {} {} {} {}\n", a.v, a.t, a.edges, a.rims, a.unions);
        let line = |t: &[u16]| format!("{} {} {}\n", t[0], t[1], t[2]);
        head + &triangles[..3 * a.t as usize].chunks(3).map(line).collect::<String>()
    })
}

/// All that the program `volume` must print for some bytes.
pub fn measured(input: &[u8]) -> String {
    answered(input, expected::volume, |(_, six), _| format!("six {six}\n"))
}

/// All that the program `note` must write for some bytes, and what it must say on standard error.
pub fn noted(input: &[u8]) -> (Vec<u8>, String) {
    let (mut triangles, mut places) = lent();
    let (answer, note) = expected::bench(pack_of(input), &mut triangles, &mut places);
    match answer {
        Ok(_) => (note.to_vec(), String::new()),
        Err(n) => (refused(n).into_bytes(), NO_NOTE.to_string()),
    }
}

/// All that the program `check_list` must print for a model.
pub fn checked(v: u64, list: &[u16]) -> String {
    plain::check(v, list).map_or_else(refused, |_| "ok\n".to_string())
}

/// What `unpack --positions` must write for an accepted pack, three numbers to a line; nothing if it has no positions.
pub fn positions_in(pack: &[u8]) -> Option<String> {
    let length = |at: usize| u16::from_be_bytes([pack[at + 1], pack[at + 2]]) as usize;
    let at = 11 + 3 + length(11);
    if pack.get(at) != Some(&3) {
        return None;
    }
    let words = pack[at + 3..at + 3 + length(at)].chunks(2).map(|w| i32::from(i16::from_be_bytes([w[0], w[1]])));
    Some(lines_of(&words.collect::<Vec<_>>()))
}

/// All that the program `pack` must write for a model, with positions and a note if they are given: the pack, or the line of a refusal;
/// and its order, if it has one.
pub fn packed(v: u64, list: &[u16], positions: Option<&[i32]>, note: Option<&[u8]>) -> (Vec<u8>, Option<String>) {
    let t = list.len() / 3;
    let mut lent = Buffers::ample(v.min(4_096) as usize, t);
    match expected::pack_whole(v, list, positions, note, lent.lend()) {
        Ok(n) => (lent.pack[..n].to_vec(), Some(lent.order[..t].iter().map(|k| format!("{k}\n")).collect())),
        Err(n) => (refused(n).into_bytes(), None),
    }
}

/// Positions as `pack` reads them, three to a line.
pub fn lines_of(positions: &[i32]) -> String {
    let line = |p: &[i32]| p.iter().map(i32::to_string).collect::<Vec<_>>().join(" ") + "\n";
    positions.chunks(3).map(line).collect()
}
