//! Calls of the second program, with all that goes in and comes out.

use crate::expected::{self, Calls, LIMITS};
use cutborder::book::Book;
use cutborder::fields::Fields;
use cutborder::ops::{encode_ops, Counts, Op};
use cutborder::plain::{self, Chosen, PackRooms};
use cutborder::{note, volume, Answer, Level, Place, Refusal};

#[derive(Clone)]
pub struct PackBuffers {
    pub numbering: Vec<u16>,
    pub places: Vec<Place>,
    pub pack: Vec<u8>,
    pub order: Vec<u16>,
}

/// What is packed beside the list, if it is given: positions by old vertex, and a note.
#[derive(Default)]
pub struct Extras {
    pub positions: Option<Vec<i32>>,
    pub note: Option<Vec<u8>>,
}

impl Extras {
    /// The bytes of their fields.
    pub fn size(&self) -> usize {
        self.positions.as_ref().map_or(0, |p| 3 + 2 * p.len()) + self.note.as_ref().map_or(0, |n| 3 + n.len())
    }
}

pub struct Packing {
    pub limits: (u32, u32),
    pub v: u64,
    pub list: Vec<u16>,
    pub extras: Extras,
    pub lent: PackBuffers,
    pub answer: Result<usize, Refusal>,
    pub left: PackBuffers,
}

impl Packing {
    pub fn new(limits: (u32, u32), v: u64, list: &[u16], lent: PackBuffers) -> Packing {
        Packing::given(limits, v, list, Extras::default(), lent)
    }

    /// A packing that may be given positions and a note.
    pub fn given(limits: (u32, u32), v: u64, list: &[u16], extras: Extras, lent: PackBuffers) -> Packing {
        let mut left = lent.clone();
        let answer = if limits == LIMITS {
            let PackBuffers { numbering, places, pack, order } = &mut left;
            let rooms = PackRooms { numbering, places, out: pack, order };
            expected::pack_whole(v, list, extras.positions.as_deref(), extras.note.as_deref(), rooms)
        } else {
            pack_within(limits, v, list, &extras, &mut left)
        };
        Packing { limits, v, list: list.to_vec(), extras, lent, answer, left }
    }
}

/// The second program's pack of a list, with what is given beside it.
fn pack_of(v: u64, t: usize, extras: &Extras, ops: &[Op], chosen: &Chosen) -> Vec<u8> {
    let book = &chosen.book;
    let counts = Counts { v: v as u32, t: t as u32, places: book.peak_places, loops: book.peak_loops };
    let field = extras.positions.as_ref().map(|p| volume::write(p, &chosen.number));
    Fields { counts, codes: None, ops: &encode_ops(ops), positions: field.as_deref(), note: extras.note.as_deref() }.bytes()
}

/// Packing with other limits on places and loops: the second program's choice, with 8, 22, 23, 25, 11 and the buffers by our hand. At the
/// rules' own limits tests/compare has them all from the second program.
fn pack_within(limits: (u32, u32), v: u64, list: &[u16], extras: &Extras, r: &mut PackBuffers) -> Result<usize, Refusal> {
    plain::check(v, list)?;
    let n = v as usize;
    if r.numbering.len() < n || r.places.len() < 1_024 {
        return Err(8);
    }
    let t = list.len() / 3;
    if r.order.len() < t {
        return Err(22);
    }
    if extras.positions.as_ref().is_some_and(|p| p.len() != 3 * n || !p.iter().all(|&x| volume::in_range(x))) {
        return Err(23);
    }
    if extras.note.as_ref().is_some_and(|x| !note::sound(x)) {
        return Err(25);
    }
    let chosen = expected::choose(v, list, limits);
    r.places[..1_024].fill(Place::default());
    let result = chosen.and_then(|(ops, chosen)| {
        let bytes = pack_of(v, t, extras, &ops, &chosen);
        if bytes.len() > r.pack.len() {
            Err(11)
        } else {
            Ok((bytes, chosen))
        }
    });
    match result {
        Ok((bytes, chosen)) => {
            r.pack[..bytes.len()].copy_from_slice(&bytes);
            r.numbering[..n].copy_from_slice(&chosen.number);
            r.order[..t].copy_from_slice(&chosen.order);
            Ok(bytes.len())
        }
        Err(e) => {
            r.pack.fill(0);
            r.numbering[..n].fill(0);
            r.order[..t].fill(0);
            Err(e)
        }
    }
}

#[derive(Clone, PartialEq)]
pub struct UnpackBuffers {
    pub triangles: Vec<u16>,
    pub places: Vec<Place>,
}

pub struct Unpacking {
    pub bytes: Vec<u8>,
    pub lent: UnpackBuffers,
    pub answer: Result<Answer, Refusal>,
    pub left: UnpackBuffers,
}

impl Unpacking {
    /// The definition `unpack` is that of packs of two fields, on which `unpack_whole` is built: to it a third field is 12, as in the base.
    pub fn new(bytes: &[u8], lent: UnpackBuffers) -> Unpacking {
        let mut left = lent.clone();
        let two = Fields::split(Level::BASE, bytes);
        let answer = two.and_then(|_| expected::unpack(bytes, &mut left.triangles, &mut left.places));
        Unpacking { bytes: bytes.to_vec(), lent, answer, left }
    }
}

/// A pack that may have positions and a note: unpacked, measured by the volume call, and read by the bench reader, which hands back the
/// note and where it starts in the pack, 0 if it is empty.
pub struct Whole {
    pub bytes: Vec<u8>,
    pub lent: UnpackBuffers,
    pub unpacked: Result<Answer, Refusal>,
    pub left: UnpackBuffers,
    pub measured: Result<(Answer, i64), Refusal>,
    pub left_measured: UnpackBuffers,
    pub note: Vec<u8>,
    pub start: usize,
}

impl Whole {
    pub fn new(bytes: &[u8], lent: UnpackBuffers) -> Whole {
        let mut left = lent.clone();
        let unpacked = expected::unpack(bytes, &mut left.triangles, &mut left.places);
        let mut left_measured = lent.clone();
        let measured = expected::volume(bytes, &mut left_measured.triangles, &mut left_measured.places);
        let mut left_read = lent.clone();
        let (read, note) = expected::bench(bytes, &mut left_read.triangles, &mut left_read.places);
        assert!(read == unpacked && left_read == left, "the bench reader answers and writes as unpacking: {bytes:?}");
        let start = if note.is_empty() { 0 } else { note.as_ptr() as usize - bytes.as_ptr() as usize };
        Whole { bytes: bytes.to_vec(), lent, unpacked, left, measured, left_measured, note: note.to_vec(), start }
    }
}

/// A pack read by the furnace's own reader.
pub struct Melting {
    pub bytes: Vec<u8>,
    pub told: Result<i64, Refusal>,
}

impl Melting {
    pub fn new(bytes: &[u8]) -> Melting {
        Melting { bytes: bytes.to_vec(), told: expected::melt(bytes) }
    }
}

/// A list of calls in the second program's words; every beginning has the same buffer lengths.
pub struct Building {
    pub lengths: (usize, usize),
    pub calls: Vec<String>,
    pub told: Vec<String>,
    pub book: Book,
}

impl Building {
    pub fn new(calls: &[String]) -> Building {
        let lengths = |line: &String| -> Option<(usize, usize)> {
            let w: Vec<&str> = line.split(' ').collect();
            (w[0] == "begin").then(|| (w[5].parse().unwrap(), w[6].parse().unwrap()))
        };
        let all: Vec<_> = calls.iter().filter_map(lengths).collect();
        assert!(calls[0].starts_with("begin") && all.iter().all(|r| *r == all[0]), "one pair of lengths: {calls:?}");
        let mut lines = Calls::default();
        let told = calls.iter().map(|c| lines.line(c)).collect();
        let book = lines.book.unwrap_or_else(|| Book::empty(Counts { v: 0, t: 0, places: 0, loops: 0 }));
        Building { lengths: all[0], calls: calls.to_vec(), told, book }
    }
}
