//! Packs with positions, changed in every way that 12, 23 and 24 refuse, each way named and met; and what 02 says of volumes.

use crate::melting::{comes_to, is_over, melted};
use crate::unpackings::{buffers, measured, read, unpacked, Lent};
use crate::{count, met, used_places, Tally};
use compare::expected::{self, contents_of, stated_triangles, with_field, Way, UNFIT};
use compare::kinds::{self, Kinds};
use compare::{narrow, pack, volume, Buffers};
use cutborder::gen::{self, Model};
use cutborder::rng::Rng;
use cutborder::volume::determinant;
use cutborder::{gen02, Place, Refusal};

/// A pack, and the name of the way in which it was changed.
pub type Changed = (&'static str, Vec<u8>);

/// The parts of a pack without a note: counts, operations and positions, which are empty if it has none.
pub fn parts(pack: &[u8]) -> [&[u8]; 3] {
    let f = expected::fields(pack).expect("a pack");
    let (counts, rest) = pack.split_at(11);
    let (ops, three) = rest.split_at(3 + f.ops.len());
    [counts, ops, three]
}

/// A way to arrange the parts of a pack, with its name.
pub type Arrangement<const N: usize> = (&'static str, fn(&mut Rng, [&[u8]; N]) -> Vec<u8>);

/// The parts of a pack arranged in each of these ways.
pub fn arranged<const N: usize>(rng: &mut Rng, ways: &[Arrangement<N>], parts: [&[u8]; N]) -> Vec<Changed> {
    ways.iter().map(|(way, arrange)| (*way, arrange(rng, parts))).collect()
}

/// Ways for 12: field 03 is not in its place, whole, once, or what follows it is no field.
const MISPLACED: [Arrangement<3>; 17] = [
    ("12: field 03 twice", |_, [counts, ops, three]| [counts, ops, three, three].concat()),
    ("12: field 03 twice, once before 02", |_, [counts, ops, three]| [counts, three, ops, three].concat()),
    ("12: field 03 before 02", |_, [counts, ops, three]| [counts, three, ops].concat()),
    ("12: field 03 before 01", |_, [counts, ops, three]| [three, counts, ops].concat()),
    ("12: field 03 and no 02", |_, [counts, _, three]| [counts, three].concat()),
    ("12: field 03 and no 01", |_, [_, ops, three]| [ops, three].concat()),
    ("12: field 03 cut after its tag", |_, [counts, ops, three]| [counts, ops, &three[..1]].concat()),
    ("12: field 03 cut in its length", |_, [counts, ops, three]| [counts, ops, &three[..2]].concat()),
    ("12: field 03 cut in its contents", |rng, [counts, ops, three]| [counts, ops, &three[..rng.range(3, three.len() - 1)]].concat()),
    ("12: a byte after field 03", |rng, [counts, ops, three]| [counts, ops, three, &[rng.below(256) as u8]].concat()),
    ("12: an empty field 05 after 03", |_, [counts, ops, three]| [counts, ops, three, &[5, 0, 0]].concat()),
    ("12: an empty field 03 after 03", |_, [counts, ops, three]| [counts, ops, three, &[3, 0, 0]].concat()),
    ("12: another tag for 03", |rng, [counts, ops, three]| [counts, ops, &[[0, 1, 2, 5, 0x83][rng.below(5)]], &three[1..]].concat()),
    ("12: 02 again after field 03", |_, [counts, ops, three]| [counts, ops, three, ops].concat()),
    ("12: field 01 has seven bytes", |_, [counts, ops, three]| [&[1, 0, 7][..], &counts[3..10], ops, three].concat()),
    ("12: field 01 has nine bytes", |_, [counts, ops, three]| [&[1, 0, 9][..], &counts[3..], &[0], ops, three].concat()),
    ("12: field 05 before 02", |_, [counts, ops, three]| [counts, &[5, 0, 8, 0, 1, 2, 3, 4, 5, 7, 6], ops, three].concat()),
];

/// Ways to change the contents of a field so that 23 refuses them, beside those of positions; one has a length whose low byte would do.
const UNFIT_BYTES: [Way<u8>; 5] = [
    ("23: a byte less", |_, contents| contents.truncate(contents.len() - 1)),
    ("23: a byte more", |_, contents| contents.push(0)),
    ("23: 256 bytes more", |_, contents| contents.resize(contents.len() + 256, 0)),
    ("23: all at the ends of 16 bits", |rng, contents| {
        contents.chunks_mut(2).for_each(|z| z.copy_from_slice(if rng.chance(1, 2) { &[0x80, 0] } else { &[0x7f, 0xff] }))
    }),
    ("23: the longest field", |_, contents| contents.resize(65_535, 0)),
];

/// A list changed in each of these ways.
pub fn each_way<T: Clone>(rng: &mut Rng, ways: &[Way<T>], list: &[T]) -> Vec<(&'static str, Vec<T>)> {
    let change = |(way, change): &Way<T>| {
        let mut list = list.to_vec();
        change(rng, &mut list);
        (*way, list)
    };
    ways.iter().map(change).collect()
}

/// 23: a pack of two fields followed by a field that is whole, but not of 6V bytes, or has a position out of range.
fn unfit(rng: &mut Rng, two: &[u8], positions: &[i32]) -> Vec<Changed> {
    let mut out = each_way(rng, &UNFIT_BYTES, &contents_of(positions));
    out.extend(each_way(rng, &UNFIT, positions).into_iter().map(|(way, zs)| (way, contents_of(&zs))));
    out.into_iter().map(|(way, contents)| (way, with_field(two, &contents))).collect()
}

/// The ways in which an accepted pack has no volume.
const UNMEASURED: [&str; 4] = ["24: a rim", "24: several rims", "24: no positions", "24: no positions, and a rim"];

/// Which of them a pack is, with positions or without, of a model with so many rims; none if it has a volume.
fn unmeasured(positions: bool, rims: u32) -> Option<&'static str> {
    let way = match (positions, rims) {
        (true, 0) => return None,
        (true, 1) => 0,
        (true, _) => 1,
        (false, 0) => 2,
        (false, _) => 3,
    };
    Some(UNMEASURED[way])
}

/// 23 goes before 24.
const RIM_TOO: &str = "23: any of these, and a rim";

/// What 12 leaves, all as it was, and what 20 leaves, which 23 to 25 leave too: 3T entries and 1,024 records are zero.
pub fn leaves(refusal: Refusal, b: &[u8], before: &Lent, after: &Lent) -> bool {
    let mut left = before.clone();
    if refusal > 14 {
        left.triangles[..3 * stated_triangles(b)].fill(0);
        left.places[..1_024].fill(Place::default());
    }
    left == *after
}

/// Ample buffers for a pack.
pub fn buffers_for(b: &[u8]) -> Lent {
    Lent { triangles: vec![7; 3 * stated_triangles(b) + 2], places: used_places(1_025) }
}

/// A pack that all calls refuse, or if it is 24 the volume call and the furnace's reader, in ample buffers. The way is met if the peaks
/// are not too large for the reader.
pub fn refused(way: &'static str, refusal: Refusal, b: &[u8], ways: &mut Kinds, tally: &mut Tally) {
    let before = buffers_for(b);
    let found = read(b, &before);
    let ((measured, left), (unpacked, left_too)) = (found.measured, found.unpacked);
    assert_eq!(measured, Err(refusal), "{way}, pack {b:02x?}");
    assert!(leaves(refusal, b, &before, &left), "{way}: buffers of pack {b:02x?}");
    assert_eq!(unpacked.err(), Some(refusal).filter(|&n| n != 24), "{way}, pack {b:02x?}");
    assert!(refusal == 24 || leaves(refusal, b, &before, &left_too), "{way}: buffers of pack {b:02x?}");
    count(tally, &Err::<(), _>(refusal));
    if is_over(b) {
        assert_eq!(found.melted, Err(26), "{way}, pack {b:02x?}");
    } else {
        assert_eq!(found.melted, Err(refusal), "{way}, pack {b:02x?}");
        kinds::count(ways, way);
    }
}

/// A model's packs with and without positions, and each way to change them.
fn changed(rng: &mut Rng, m: &Model, ways: &mut Kinds, tally: &mut Tally) {
    let positions = gen02::positions(rng, m.v as usize);
    let Some(two) = expected::packed(m, None) else { return };
    let whole = expected::packed(m, Some(&positions)).expect("a pack");
    let rims = unpacked(&two, &buffers_for(&two)).0.expect("a model").rims;
    for (b, given) in [(&two, false), (&whole, true)] {
        match unmeasured(given, rims) {
            Some(way) => refused(way, 24, b, ways, tally),
            None => count(tally, &read(b, &buffers_for(b)).measured.0),
        }
    }
    arranged(rng, &MISPLACED, parts(&whole)).iter().for_each(|(way, b)| refused(way, 12, b, ways, tally));
    for (way, b) in unfit(rng, &two, &positions) {
        refused(way, 23, &b, ways, tally);
        if rims > 0 {
            kinds::count(ways, RIM_TOO);
        }
    }
}

/// Every way to be refused with 12, 23 or 24 that has to do with positions.
pub fn ways(rng: &mut Rng, rounds: usize) -> (usize, Tally) {
    let (mut ways, mut tally) = (Kinds::new(), Tally::new());
    for i in 0..rounds {
        let m = if i == 0 { Model::of(&gen::grid(64, 64, true, true, || true)) } else { gen02::model(rng) };
        changed(rng, &m, &mut ways, &mut tally);
    }
    println!("    ways: {ways:?}");
    kinds::met(&ways, &MISPLACED.map(|(way, _)| way));
    kinds::met(&ways, &UNMEASURED);
    kinds::met(&ways, &UNFIT.map(|(way, _)| way));
    kinds::met(&ways, &UNFIT_BYTES.map(|(way, _)| way));
    kinds::met(&ways, &[RIM_TOO]);
    met(&tally, &[0, 12, 23, 24]);
    (tally.values().sum(), tally)
}

/// A pack of two fields that one of 13 to 20 refuses is refused so if positions follow that 23 would refuse.
fn earlier(rng: &mut Rng, tally: &mut Tally) {
    let two = if rng.chance(1, 2) { expected::random_pack(rng, 40) } else { expected::random_whole_pack(rng) };
    if !expected::fields(&two).is_ok_and(|f| f.positions.is_none() && f.note.is_none()) {
        return;
    }
    let before = buffers(rng, &two);
    let (Err(n), after) = unpacked(&two, &before) else { return };
    let whole = expected::with_unfit_field(rng, &two);
    let (unpacked, measured) = (unpacked(&whole, &before), measured(&whole, &before));
    assert_eq!((unpacked.0.err(), measured.0.err()), (Some(n), Some(n)), "pack {whole:02x?}");
    assert!(unpacked.1 == after && measured.1 == after, "buffers of pack {whole:02x?}");
    assert_eq!(melted(&whole), Err(comes_to(23, melted(&two))), "pack {whole:02x?}");
    count(tally, &Err::<(), _>(n));
}

/// Packs with more than one fault.
pub fn faults_together(rng: &mut Rng, rounds: usize) -> (usize, Tally) {
    let mut tally = Tally::new();
    (0..rounds).for_each(|_| earlier(rng, &mut tally));
    met(&tally, &[13, 14, 15, 16, 17, 18, 19, 20]);
    (tally.values().sum(), tally)
}

/// A cube's corners are numbered by their axes, 1 for x, 2 for y, 4 for z; its triangles are turned outwards.
const CUBE: [u16; 36] =
    [0, 2, 1, 1, 2, 3, 4, 5, 6, 5, 7, 6, 0, 1, 4, 1, 5, 4, 2, 6, 3, 3, 6, 7, 0, 4, 2, 2, 4, 6, 1, 3, 5, 3, 7, 5];

/// Six times the volume of a list with positions, by packing it and measuring its pack; none if it is refused or has a rim.
fn six(m: &Model, positions: &[i32]) -> Option<i64> {
    let mut lent = Buffers::ample(m.v as usize, m.list.len() / 3);
    let n = pack(m.v as usize, &m.list, Some(&narrow(positions)), lent.lend()).ok()?;
    let mut triangles = vec![0; m.list.len()];
    let _ = melted(&lent.pack[..n]);
    volume(&lent.pack[..n], &mut triangles, &mut lent.places).ok().map(|(_, six)| six)
}

/// Cubes: the volume is known.
fn cubes() -> usize {
    let cube = Model { v: 8, list: CUBE.to_vec() };
    let sides = [(0, 1), (0, 10), (-5, 5), (2_037, 2_047), (-2_048, -2_038), (-2_048, 2_047), (7, 7), (10, 0)];
    for (from, to) in sides {
        let corners: Vec<i32> = (0..24).map(|i| if (i / 3) >> (i % 3) & 1 == 0 { from } else { to }).collect();
        let side = i64::from(to - from);
        assert_eq!(six(&cube, &corners), Some(6 * side.pow(3)), "a cube from {from} to {to}");
        assert_eq!(six(&turned(&cube), &corners), Some(-6 * side.pow(3)), "a cube from {from} to {to}, inside out");
    }
    2 * sides.len()
}

/// Each triangle turned over.
fn turned(m: &Model) -> Model {
    Model { v: m.v, list: m.list.chunks(3).flat_map(|t| [t[0], t[2], t[1]]).collect() }
}

/// The volume is the sum over the list itself; inside out it has the other sign; a position moved by d moves it by no more than 02
/// promises. Whether the list is packed, and whether it is inside out.
fn holds(rng: &mut Rng, m: &Model, positions: &[i32]) -> (bool, bool) {
    let at = |v: u16| [0, 1, 2].map(|i| positions[3 * usize::from(v) + i]);
    let sum = m.list.chunks(3).map(|t| determinant(at(t[0]), at(t[1]), at(t[2]))).sum();
    let Some(found) = six(m, positions) else { return (false, false) };
    assert_eq!(found, sum, "volume of {}, {positions:?}", m.line());
    let inside_out = six(&turned(m), positions);
    assert_eq!(inside_out.unwrap_or(-sum), -sum, "inside out: {}, {positions:?}", m.line());
    let (i, mut moved) = (rng.below(positions.len()), positions.to_vec());
    moved[i] = rng.range(0, 4_095) as i32 - 2_048;
    let triangles = m.list.iter().filter(|&&v| usize::from(v) == i / 3).count() as i64;
    let most = 8_388_608 * i64::from((moved[i] - positions[i]).abs()) * triangles;
    let by = six(m, &moved).expect("a volume") - sum;
    assert!(by.abs() <= most, "moved by {by}, position {i} of {}, {positions:?}", m.line());
    (true, inside_out.is_some())
}

/// What 02 says of volumes, by the service alone, of closed models small and large.
pub fn volumes(rng: &mut Rng, rounds: usize) {
    let large = [Model::of(&gen::grid(64, 64, true, true, || true)), Model::of(&gen::icosphere(20))];
    let (mut packed, mut inside_out) = (0, 0);
    for i in 0..rounds {
        let m = match i {
            0..20 => gen::relist(rng, &large[i % 2]),
            _ => {
                let t = [12, 40, 150, 600][rng.below(4)];
                gen::fan_split(&gen::closed_surface(rng, t))
            }
        };
        let positions = gen02::positions(rng, m.v as usize);
        let (one, other) = holds(rng, &m, &positions);
        packed += usize::from(one);
        inside_out += usize::from(other);
    }
    println!("volumes: {} of cubes, {packed} of closed models and {inside_out} of these inside out as 02 has them", cubes());
    assert!(packed > rounds / 2 && inside_out > rounds / 2);
}
