//! The calls that read a pack, unpacking, the volume call and the bench reader, compared with the second program: the answers and both
//! buffers afterwards. And what the furnace's own reader answers.

use crate::melting::melted;
use crate::{count, met, models, records, used_places, Tally};
use compare::expected::{self, LEVEL};
use compare::kinds::{self, Kinds};
use compare::{bench, unpack, volume};
use cutborder::fast::Unpacker;
use cutborder::proto::unhex;
use cutborder::rng::Rng;
use cutborder::{gen, gen02, Answer, Place, Refusal};
use std::fmt::Debug;

const PACKS: &str = include_str!("../../../reference/vectors/packs.txt");

/// What is lent to each call.
#[derive(Clone, PartialEq)]
pub struct Lent {
    pub triangles: Vec<u16>,
    pub places: Vec<Place>,
}

/// One of the calls, the service's or the second program's.
type Call<'a, A> = fn(&'a [u8], &mut [u16], &mut [Place]) -> A;

/// One call of the service and of the second program: what both answer, and the buffers afterwards.
fn alike<'a, A: Debug + PartialEq>(b: &'a [u8], before: &Lent, ours: Call<'a, A>, second: Call<'a, A>) -> (A, Lent) {
    let (mut lent, mut expected) = (before.clone(), before.clone());
    let answer = second(b, &mut expected.triangles, &mut expected.places);
    assert_eq!(ours(b, &mut lent.triangles, &mut lent.places), answer, "pack {b:02x?}");
    assert_eq!(lent.triangles, expected.triangles, "triangles of pack {b:02x?}");
    assert_eq!(lent.places, expected.places, "places after pack {b:02x?}");
    (answer, lent)
}

/// What unpacking and the volume call answer and leave, the note, and what the furnace's reader answers.
pub struct Read<'a> {
    pub unpacked: (Result<Answer, Refusal>, Lent),
    pub measured: (Result<(Answer, i64), Refusal>, Lent),
    pub note: &'a [u8],
    pub melted: Result<i64, Refusal>,
}

impl Read<'_> {
    /// Whether unpacking and the volume call answer and leave the same.
    pub fn is_as(&self, other: &Read) -> bool {
        self.unpacked == other.unpacked && self.measured == other.measured
    }
}

/// A pack read by all four calls; the bench reader answers and writes as unpacking.
pub fn read<'a>(b: &'a [u8], before: &Lent) -> Read<'a> {
    let (unpacked, measured) = (unpacked(b, before), measured(b, before));
    let ((answer, note), after) = alike(b, before, bench, expected::bench);
    assert!(answer == unpacked.0 && after == unpacked.1, "the bench reader and unpacking differ, pack {b:02x?}");
    Read { unpacked, measured, note, melted: melted(b) }
}

pub fn unpacked(b: &[u8], before: &Lent) -> (Result<Answer, Refusal>, Lent) {
    alike(b, before, unpack, expected::unpack)
}

pub fn measured(b: &[u8], before: &Lent) -> (Result<(Answer, i64), Refusal>, Lent) {
    alike(b, before, volume, expected::volume)
}

/// Buffers that hold anything, mostly long enough for what some bytes state, sometimes shorter or longer.
pub fn buffers(rng: &mut Rng, b: &[u8]) -> Lent {
    let t = expected::stated_triangles(b);
    let numbers = if rng.chance(1, 16) { rng.below(3 * t + 1) } else { 3 * t + rng.below(4) };
    Lent { triangles: vec![7; numbers], places: used_places(records(rng)) }
}

/// What was answered, how many notes were handed back, and what happened in shortened loops.
#[derive(Default)]
struct Seen {
    unpacks: Tally,
    volumes: Tally,
    notes: usize,
    kinds: Kinds,
}

/// Some bytes read in buffers of some length.
fn unpacking(rng: &mut Rng, b: &[u8], fast: &mut Unpacker, seen: &mut Seen) {
    let before = buffers(rng, b);
    let Read { unpacked: (answer, after), measured, note, .. } = read(b, &before);
    count(&mut seen.unpacks, &answer);
    count(&mut seen.volumes, &measured.0);
    seen.notes += usize::from(!note.is_empty());
    let fields = expected::fields(b);
    if !matches!(answer, Err(23 | 25)) {
        // The fast engine knows two fields and neither of these.
        let two = fields.map_or(b.len(), |f| 14 + f.ops.len());
        let mut lent = before.clone();
        let found = fast.unpack_at(LEVEL, &b[..two], &mut lent.triangles, &mut lent.places);
        assert!(found == answer && lent == after, "fast engine, pack {b:02x?}");
    }
    let Ok(f) = fields else { return };
    if let Ok(book) = expected::begin(f.counts, before.triangles.len(), before.places.len()) {
        kinds::note_all(&mut seen.kinds, book, &gen::read_ops(f.ops));
    }
}

/// A pack, with positions and a note or without, sound or spoilt, or any bytes.
fn bytes(rng: &mut Rng) -> Vec<u8> {
    let mut b = match rng.below(6) {
        0 => (0..rng.below(40)).map(|_| rng.below(256) as u8).collect(),
        1 | 2 => expected::random_whole_pack(rng),
        _ => expected::random_pack(rng, 40),
    };
    match rng.below(6) {
        0 if !b.is_empty() => b.truncate(rng.below(b.len())),
        1 => b.extend((0..rng.range(1, 4)).map(|_| rng.below(256) as u8)),
        2 if !b.is_empty() => {
            let most = if rng.chance(1, 2) { 20 } else { b.len() };
            let i = rng.below(b.len().min(most));
            b[i] ^= 1 << rng.below(8);
        }
        // A whole field, or what looks like one.
        3 if rng.chance(1, 2) => {
            let n = rng.below(5) as u8;
            b.extend([rng.range(1, 5) as u8, 0, n]);
            b.extend((0..n).map(|_| rng.below(256) as u8));
        }
        _ => {}
    }
    b
}

/// A sound model's pack, or nothing if it is refused; half of them have positions, half a note.
fn sound_pack(rng: &mut Rng) -> Vec<u8> {
    let m = gen::sound(rng, 200);
    let positions = rng.chance(1, 2).then(|| gen02::positions(rng, m.v as usize));
    match expected::packed(&m, positions.as_deref()) {
        Some(pack) if rng.chance(1, 2) => expected::with_note(&pack, &expected::random_note(rng)),
        pack => pack.unwrap_or_default(),
    }
}

/// Bytes that are no pack, or hardly one.
pub fn strings(rng: &mut Rng, rounds: usize) -> (usize, Tally) {
    let (mut seen, mut fast) = (Seen::default(), Unpacker::new());
    for _ in 0..rounds {
        let b = bytes(rng);
        unpacking(rng, &b, &mut fast, &mut seen);
    }
    told(seen, &[0, 12, 13, 14, 15, 16, 17, 18, 19, 23, 25], rounds)
}

/// Packs of all kinds, sound and spoilt.
pub fn unpacks(rng: &mut Rng, rounds: usize) -> (usize, Tally) {
    let mut packs: Vec<Vec<u8>> = PACKS.lines().filter(|l| !l.starts_with('#')).map(|l| unhex(l).expect("hexadecimal")).collect();
    packs.extend(models().iter().filter_map(|m| expected::packed(m, None)));
    let (mut seen, mut fast) = (Seen::default(), Unpacker::new());
    for i in 0..rounds + packs.len() {
        let b = match i.checked_sub(packs.len()) {
            None => packs[i].clone(),
            Some(n) if n % 5 == 0 => bytes(rng),
            Some(n) if n % 5 == 1 => sound_pack(rng),
            Some(n) if n % 5 == 2 => expected::random_whole_pack(rng),
            _ => expected::random_pack(rng, 120),
        };
        unpacking(rng, &b, &mut fast, &mut seen);
    }
    crate::shortened(&seen.kinds);
    told(seen, &[0, 12, 13, 14, 15, 16, 17, 18, 19, 20, 23, 25], rounds + packs.len())
}

/// All of these answers were met by each call, 24 by the volume's, which is printed, and notes were handed back.
fn told(seen: Seen, answers: &[u8], n: usize) -> (usize, Tally) {
    println!("    measured: answers {:?}; {} notes handed back", seen.volumes, seen.notes);
    assert!(seen.notes > 0, "no note was handed back");
    met(&seen.unpacks, answers);
    met(&seen.volumes, answers);
    met(&seen.volumes, &[24]);
    (n, seen.unpacks)
}
