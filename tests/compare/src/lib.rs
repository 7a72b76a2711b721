//! The service's functions as Rust sees them: each exported function behind a safe one. And what is expected of them.

#[path = "../../expected.rs"]
pub mod expected;
pub mod kinds;
pub mod texts;

use cutborder::across::Across;
use cutborder::book::{Finish, Spot};
use cutborder::ops::{Counts, Op};
use cutborder::plain::PackRooms;
use cutborder::{Answer, Place, Refusal, MAX_INPUT};

/// A builder as it lies in memory, 213 numbers: the four counts stated, vertices, triangles, both peaks, edges, starts, unions, rims,
/// live loops, then the loops' current places and their sizes.
pub const STATE: usize = 213;
pub type State = [u16; STATE];

extern "C" {
    fn cutborder_bench(
        pack: *const u8,
        len: usize,
        triangles: *mut u16,
        triangles_len: usize,
        places: *mut Place,
        places_len: usize,
        model: *mut [u16; 5],
        euler: *mut i32,
        start: *mut usize,
        length: *mut usize,
    ) -> u32;
    fn cutborder_begin(
        v: u32,
        t: u32,
        most_places: u32,
        most_loops: u32,
        triangles: *mut u16,
        triangles_len: usize,
        places: *mut Place,
        places_len: usize,
        state: *mut State,
    ) -> u32;
    fn cutborder_check(v: usize, list: *const u16, len: usize) -> u32;
    fn cutborder_finish(
        state: *const State,
        triangles: *const u16,
        triangles_len: usize,
        places: *const Place,
        places_len: usize,
        totals: *mut [u16; 3],
        euler: *mut i32,
    ) -> u32;
    fn cutborder_operation(
        state: *mut State,
        code: u32,
        p: u32,
        j: u32,
        triangles: *mut u16,
        triangles_len: usize,
        places: *mut Place,
        places_len: usize,
        built: *mut [u16; 4],
    ) -> u32;
    fn cutborder_pack(
        v: usize,
        list: *const u16,
        len: usize,
        numbering: *mut u16,
        numbering_len: usize,
        buffer: *mut u8,
        buffer_len: usize,
        order: *mut u16,
        order_len: usize,
        places: *mut Place,
        places_len: usize,
        size: *mut u32,
    ) -> u32;
    fn cutborder_pack_note(
        v: usize,
        list: *const u16,
        len: usize,
        note: *const u8,
        note_len: usize,
        numbering: *mut u16,
        numbering_len: usize,
        buffer: *mut u8,
        buffer_len: usize,
        order: *mut u16,
        order_len: usize,
        places: *mut Place,
        places_len: usize,
        size: *mut u32,
    ) -> u32;
    fn cutborder_pack_positions(
        v: usize,
        list: *const u16,
        len: usize,
        positions: *const i16,
        positions_len: usize,
        numbering: *mut u16,
        numbering_len: usize,
        buffer: *mut u8,
        buffer_len: usize,
        order: *mut u16,
        order_len: usize,
        places: *mut Place,
        places_len: usize,
        size: *mut u32,
    ) -> u32;
    fn cutborder_pack_positions_note(
        v: usize,
        list: *const u16,
        len: usize,
        positions: *const i16,
        positions_len: usize,
        note: *const u8,
        note_len: usize,
        numbering: *mut u16,
        numbering_len: usize,
        buffer: *mut u8,
        buffer_len: usize,
        order: *mut u16,
        order_len: usize,
        places: *mut Place,
        places_len: usize,
        size: *mut u32,
    ) -> u32;
    fn cutborder_unpack(
        pack: *const u8,
        len: usize,
        triangles: *mut u16,
        triangles_len: usize,
        places: *mut Place,
        places_len: usize,
        model: *mut [u16; 5],
        euler: *mut i32,
    ) -> u32;
    fn cutborder_volume(
        pack: *const u8,
        len: usize,
        triangles: *mut u16,
        triangles_len: usize,
        places: *mut Place,
        places_len: usize,
        model: *mut [u16; 5],
        euler: *mut i32,
        six: *mut i64,
    ) -> u32;
    // The search alone, of the library `search`.
    fn cutborder_link(v: usize, list: *const u16, len: usize, links: *mut Links) -> u32;
    fn cutborder_search(list: *const u16, len: usize, links: *const Links, p: u16, q: u16, found: *mut [u16; 3]) -> u32;
    // The furnace's own reader, of the library `furnace`.
    fn furnace_read(pack: *const u8, len: usize, memory: *mut Memory, six: *mut i64) -> u8;
}

/// What the furnace's own reader is lent.
pub type Memory = [u8; 1_024];

/// The links of a list: for each vertex its latest corner, for each corner the one before it.
pub const LINKS: usize = 4_096 + 24_576;
pub type Links = [u16; LINKS];

/// What the memory for results holds before a call: a refusal leaves it so.
const BEFORE: (u16, i32, i64) = (7_777, -7_777, -7_777_777_777_777);

/// An answer's number; the results that it came with are as they were if it is a refusal.
fn verdict(n: u32, untouched: bool) -> Result<(), Refusal> {
    match n {
        0 => Ok(()),
        n => {
            assert!(untouched, "refusal {n} changed the memory for results");
            Err(u8::try_from(n).expect("a refusal's number"))
        }
    }
}

/// Refusals 1 to 7.
pub fn check(v: usize, list: &[u16]) -> Result<(), Refusal> {
    verdict(unsafe { cutborder_check(v, list.as_ptr(), list.len()) }, true)
}

pub fn unpack(pack: &[u8], triangles: &mut [u16], places: &mut [Place]) -> Result<Answer, Refusal> {
    let (mut model, mut euler) = ([BEFORE.0; 5], BEFORE.1);
    let (ts, ps) = ((triangles.as_mut_ptr(), triangles.len()), (places.as_mut_ptr(), places.len()));
    let n = unsafe { cutborder_unpack(pack.as_ptr(), pack.len(), ts.0, ts.1, ps.0, ps.1, &mut model, &mut euler) };
    verdict(n, model == [BEFORE.0; 5] && euler == BEFORE.1)?;
    Ok(answer(model, euler))
}

/// What unpacking answers, and six times the volume.
pub fn volume(pack: &[u8], triangles: &mut [u16], places: &mut [Place]) -> Result<(Answer, i64), Refusal> {
    let (mut model, mut euler, mut six) = ([BEFORE.0; 5], BEFORE.1, BEFORE.2);
    let (ts, ps) = ((triangles.as_mut_ptr(), triangles.len()), (places.as_mut_ptr(), places.len()));
    let n = unsafe { cutborder_volume(pack.as_ptr(), pack.len(), ts.0, ts.1, ps.0, ps.1, &mut model, &mut euler, &mut six) };
    verdict(n, model == [BEFORE.0; 5] && (euler, six) == (BEFORE.1, BEFORE.2))?;
    Ok((answer(model, euler), six))
}

/// The furnace's own reader: six times the volume. The memory may hold anything, before and afterwards.
pub fn melt(pack: &[u8], memory: &mut Memory) -> Result<i64, Refusal> {
    let mut six = BEFORE.2;
    let n = unsafe { furnace_read(pack.as_ptr(), pack.len(), memory, &mut six) };
    verdict(n.into(), six == BEFORE.2)?;
    Ok(six)
}

/// What unpacking answers, and the note as a part of the pack; empty if there is none or the pack is refused.
pub fn bench<'a>(pack: &'a [u8], triangles: &mut [u16], places: &mut [Place]) -> (Result<Answer, Refusal>, &'a [u8]) {
    let (mut model, mut euler) = ([BEFORE.0; 5], BEFORE.1);
    let (mut start, mut length) = (usize::MAX, usize::MAX);
    let (ts, ps) = ((triangles.as_mut_ptr(), triangles.len()), (places.as_mut_ptr(), places.len()));
    let n = unsafe { cutborder_bench(pack.as_ptr(), pack.len(), ts.0, ts.1, ps.0, ps.1, &mut model, &mut euler, &mut start, &mut length) };
    let told = verdict(n, model == [BEFORE.0; 5] && euler == BEFORE.1).map(|()| answer(model, euler));
    let is_part = (start, length) == (0, 0) || length > 0 && start.checked_add(length) == Some(pack.len());
    assert!(is_part, "{length} bytes from {start} on are not the note that ends pack {pack:02x?}");
    (told, &pack[start..start + length])
}

fn answer(model: [u16; 5], euler: i32) -> Answer {
    let [v, t, edges, rims, unions] = model.map(u32::from);
    Answer { v, t, edges, rims, unions, euler }
}

/// The buffers of a packing.
#[derive(Clone)]
pub struct Buffers {
    pub numbering: Vec<u16>,
    pub pack: Vec<u8>,
    pub order: Vec<u16>,
    pub places: Vec<Place>,
}

impl Buffers {
    /// Ample ones for a model of v vertices and t triangles.
    pub fn ample(v: usize, t: usize) -> Buffers {
        Buffers { numbering: vec![0; v], pack: vec![0; MAX_INPUT], order: vec![0; t], places: vec![Place::default(); 1_024] }
    }

    pub fn lend(&mut self) -> PackRooms<'_> {
        PackRooms { numbering: &mut self.numbering, places: &mut self.places, out: &mut self.pack, order: &mut self.order }
    }
}

/// A packing, with positions by old vertex if they are given: the pack's length.
pub fn pack(v: usize, list: &[u16], positions: Option<&[i16]>, lent: PackRooms) -> Result<usize, Refusal> {
    pack_whole(v, list, positions, None, lent)
}

/// The same with a note, if it is given.
pub fn pack_whole(v: usize, list: &[u16], positions: Option<&[i16]>, note: Option<&[u8]>, lent: PackRooms) -> Result<usize, Refusal> {
    let mut size = u32::from(BEFORE.0);
    let (ls, ns) = ((list.as_ptr(), list.len()), (lent.numbering.as_mut_ptr(), lent.numbering.len()));
    let (bs, os) = ((lent.out.as_mut_ptr(), lent.out.len()), (lent.order.as_mut_ptr(), lent.order.len()));
    let ps = (lent.places.as_mut_ptr(), lent.places.len());
    let s = &mut size;
    let n = match (positions.map(|zs| (zs.as_ptr(), zs.len())), note.map(|bytes| (bytes.as_ptr(), bytes.len()))) {
        (None, None) => unsafe { cutborder_pack(v, ls.0, ls.1, ns.0, ns.1, bs.0, bs.1, os.0, os.1, ps.0, ps.1, s) },
        (Some(zs), None) => unsafe {
            cutborder_pack_positions(v, ls.0, ls.1, zs.0, zs.1, ns.0, ns.1, bs.0, bs.1, os.0, os.1, ps.0, ps.1, s)
        },
        (None, Some(ts)) => unsafe { cutborder_pack_note(v, ls.0, ls.1, ts.0, ts.1, ns.0, ns.1, bs.0, bs.1, os.0, os.1, ps.0, ps.1, s) },
        (Some(zs), Some(ts)) => unsafe {
            cutborder_pack_positions_note(v, ls.0, ls.1, zs.0, zs.1, ts.0, ts.1, ns.0, ns.1, bs.0, bs.1, os.0, os.1, ps.0, ps.1, s)
        },
    };
    verdict(n, size == u32::from(BEFORE.0))?;
    Ok(size as usize)
}

/// Positions as the service is lent them, in 16 bits. The second program takes 32: what 16 do not hold is lent as the nearest number
/// that they hold, which is out of the grid as well, so that both answer 23.
pub fn narrow(positions: &[i32]) -> Vec<i16> {
    positions.iter().map(|&z| z.clamp(i16::MIN.into(), i16::MAX.into()) as i16).collect()
}

/// Links a list for searching: refusals 1 to 4.
pub fn link(v: usize, list: &[u16], links: &mut Links) -> Result<(), Refusal> {
    verdict(unsafe { cutborder_link(v, list.as_ptr(), list.len(), links) }, true)
}

/// Searches a list, as it was linked, for p→q.
pub fn search(list: &[u16], links: &Links, p: u16, q: u16) -> Option<Across> {
    let mut found = [BEFORE.0; 3];
    match unsafe { cutborder_search(list.as_ptr(), list.len(), links, p, q, &mut found) } {
        0 => {
            assert_eq!(found, [BEFORE.0; 3], "nothing found, and something written");
            None
        }
        n => {
            assert_eq!(n, 1);
            Some(Across { triangle: found[0].into(), corner: found[1].into(), c: found[2] })
        }
    }
}

/// A builder with its state and its buffers: a triangle buffer and a list of place records.
#[derive(Clone)]
pub struct Building {
    pub state: State,
    pub triangles: Vec<u16>,
    pub places: Vec<Place>,
}

impl Building {
    /// A builder that was never begun, in buffers that hold anything.
    pub fn new(entries: usize, records: usize, filler: u16) -> Building {
        let place = Place { vertex: filler, before: filler, after: filler, open: filler % 2 == 1 };
        Building { state: [0; STATE], triangles: vec![filler; entries], places: vec![place; records] }
    }

    pub fn begin(&mut self, c: Counts) -> Result<(), Refusal> {
        let (t, p) = (&mut self.triangles, &mut self.places);
        let (ts, ps) = ((t.as_mut_ptr(), t.len()), (p.as_mut_ptr(), p.len()));
        verdict(unsafe { cutborder_begin(c.v, c.t, c.places, c.loops, ts.0, ts.1, ps.0, ps.1, &mut self.state) }, true)
    }

    /// The triangle built, or none at border.
    pub fn operate(&mut self, op: Op) -> Result<Option<[u16; 3]>, Refusal> {
        let (p, j) = match op {
            Op::Split(i) => (0, i),
            Op::Union(p, j) => (p, j),
            _ => (0, 0),
        };
        self.operate_coded(op.code(), p, j)
    }

    /// The same for any code and indices.
    pub fn operate_coded(&mut self, code: u32, p: u32, j: u32) -> Result<Option<[u16; 3]>, Refusal> {
        let mut built = [BEFORE.0; 4];
        let (t, r) = (&mut self.triangles, &mut self.places);
        let (ts, ps) = ((t.as_mut_ptr(), t.len()), (r.as_mut_ptr(), r.len()));
        let n = unsafe { cutborder_operation(&mut self.state, code, p, j, ts.0, ts.1, ps.0, ps.1, &mut built) };
        verdict(n, built == [BEFORE.0; 4])?;
        match built {
            [1, a, b, c] => Ok(Some([a, b, c])),
            marked => {
                assert_eq!(marked, [0; 4]);
                Ok(None)
            }
        }
    }

    pub fn finish(&self) -> Result<Finish, Refusal> {
        let (mut totals, mut euler) = ([BEFORE.0; 3], BEFORE.1);
        let (t, p) = (&self.triangles, &self.places);
        let n = unsafe { cutborder_finish(&self.state, t.as_ptr(), t.len(), p.as_ptr(), p.len(), &mut totals, &mut euler) };
        verdict(n, totals == [BEFORE.0; 3] && euler == BEFORE.1)?;
        let [edges, rims, unions] = totals.map(u32::from);
        Ok(Finish { edges, rims, unions, euler })
    }

    /// The live loops, the current one first, each from its current edge on.
    pub fn rings(&self) -> Vec<Vec<Spot>> {
        (0..self.state[12] as usize)
            .rev()
            .map(|l| {
                let mut at = self.state[13 + l] as usize;
                (0..self.state[113 + l])
                    .map(|_| {
                        let place = self.places[at];
                        at = place.after as usize;
                        Spot { vertex: place.vertex, open: place.open }
                    })
                    .collect()
            })
            .collect()
    }
}
