//! Packing, with and without positions and notes, compared with the second program: the answer and all four buffers afterwards.

use crate::notes::FIT_NOTES;
use crate::{count, met, models, records, used_places, Tally};
use compare::expected::{self, contents_of, random_note, with_field, with_note, Way, LEVEL, LIMITS, UNFIT, UNFIT_NOTES};
use compare::kinds::{self, Kinds};
use compare::{narrow, pack, pack_whole, unpack, Buffers};
use cutborder::fast::Packer;
use cutborder::gen::{self, Model};
use cutborder::rng::Rng;
use cutborder::{gen02, Place, Refusal};

/// What was answered without positions, with positions that fit and with others, the ways in which these are 23, the same with a note,
/// the ways of notes without positions and with them, and what happened in shortened loops.
#[derive(Default)]
struct Seen {
    plain: Tally,
    fit: Tally,
    unfit: Tally,
    ways: Kinds,
    noted: [Tally; 3],
    notes: [Kinds; 2],
    kinds: Kinds,
}

/// Notes that 25 refuses and no field holds; their lengths in 16 bits would do.
const LONG_NOTES: [Way<u8>; 2] =
    [("25: 65,537 bytes", |_, note| note.resize(65_537, 9)), ("25: 65,600 bytes", |_, note| note.resize(65_600, 0))];

/// All kinds of notes, half of which 25 refuses.
fn note_ways() -> Vec<Way<u8>> {
    [&FIT_NOTES[..], &UNFIT_NOTES, &LONG_NOTES].concat()
}

/// A flat model with a long rim or many of them, which full loops would hardly hold.
fn filigree(rng: &mut Rng) -> Model {
    let m = match rng.below(3) {
        0 => Model::of(&gen::grid(rng.range(200, 1_000), 1, false, false, || true)),
        1 => {
            let w = rng.range(300, 1_000);
            Model::of(&gen::grid(w, rng.range(1, (4_096 / (w + 1)).max(2) - 1), false, false, || true))
        }
        _ => {
            let w = rng.range(30, 50);
            let share = rng.range(5, 45);
            let mut t = gen::grid(w, w, false, false, || true);
            t.retain(|_| rng.below(100) >= share);
            gen::fan_split(&t)
        }
    };
    if rng.chance(1, 2) { gen::relist(rng, &m) } else { m }
}

/// Models of all kinds, good and bad, packed in buffers of all lengths: the answer and every buffer afterwards.
pub fn random(rng: &mut Rng, rounds: usize) -> (usize, Tally) {
    let mut seen = Seen::default();
    let mut fast = Packer::new();
    let known = models();
    for m in &known {
        packing(rng, m, &mut fast, &mut seen);
    }
    for i in 0..rounds {
        let max_t = [6, 20, 60, 200, 600][rng.below(5)];
        let m = match i {
            0 => gen::fan(1_024),
            1 => gen::fan(1_025),
            _ if i % 400 == 2 => gen::limit(rng),
            _ if i % 500 == 3 => gen::branches(rng, 101).unwrap_or_else(|| gen::sound(rng, max_t)),
            _ if i % 100 == 4 => filigree(rng),
            _ => match i % 6 {
                0 => gen::model(rng, max_t),
                1 => gen::damaged(rng, max_t),
                2 => gen::pinched(rng, max_t),
                _ => gen::sound(rng, max_t),
            },
        };
        packing(rng, &m, &mut fast, &mut seen);
    }
    crate::shortened(&seen.kinds);
    (3 * (rounds + known.len()), told(seen))
}

/// Every answer was met without positions, with such as fit (9 and 10 by `faults_together`), and with others, 23 in every way; and so
/// with notes, of every kind.
fn told(seen: Seen) -> Tally {
    println!("    with positions: answers {:?}, with such as do not fit {:?}, ways of 23 {:?}", seen.fit, seen.unfit, seen.ways);
    println!("    with notes, without positions and with both kinds: answers {:?}, ways of notes {:?}", seen.noted, seen.notes);
    met(&seen.plain, &[0, 1, 2, 3, 4, 5, 6, 7, 8, 9, 10, 11, 22]);
    met(&seen.fit, &[0, 1, 2, 3, 4, 5, 6, 7, 8, 11, 22]);
    met(&seen.unfit, &[1, 2, 3, 4, 5, 6, 7, 8, 22, 23]);
    kinds::met(&seen.ways, &UNFIT.map(|(way, _)| way));
    let [plain, fit, unfit] = &seen.noted;
    [plain, fit].iter().for_each(|tally| met(tally, &[0, 1, 2, 3, 4, 5, 6, 7, 8, 11, 22, 25]));
    met(unfit, &[1, 2, 3, 4, 5, 6, 7, 8, 22, 23]);
    let kinds: Vec<_> = note_ways().iter().map(|&(way, _)| way).collect();
    seen.notes.iter().for_each(|ways| kinds::met(ways, &kinds));
    seen.plain
}

/// Buffers for a model that hold anything, mostly long enough for a pack of this length, sometimes shorter or longer.
fn buffers(rng: &mut Rng, m: &Model, long: usize) -> Buffers {
    let (v, t) = ((m.v as usize).min(5_000), m.list.len() / 3);
    let size = match rng.below(8) {
        0 => rng.below(long + 1),
        1 => long,
        _ => long + rng.below(9),
    };
    let order = match rng.below(20) {
        0 => 0,
        1 => t.saturating_sub(1),
        2 => rng.below(t + 1),
        3 => t + rng.below(9_000),
        _ => t + rng.below(3),
    };
    Buffers {
        numbering: vec![7; if rng.chance(1, 20) { rng.below(v + 1) } else { v + rng.below(3) }],
        pack: vec![5; size],
        order: (0..order).map(|_| rng.next() as u16).collect(),
        places: used_places(records(rng)),
    }
}

/// What packing is given beside the list.
type Given<'a> = (Option<&'a [i32]>, Option<&'a [u8]>);

/// One packing of a model, with positions and a note if they are given, by the service and by the second program: what both answer, and
/// the buffers afterwards.
fn alike(m: &Model, given: Given, before: &Buffers) -> (Result<usize, Refusal>, Buffers) {
    let (positions, note) = given;
    let (mut lent, mut expected) = (before.clone(), before.clone());
    let answer = expected::pack_whole(m.v, &m.list, positions, note, expected.lend());
    let found = pack_whole(m.v as usize, &m.list, positions.map(narrow).as_deref(), note, lent.lend());
    assert_eq!(found, answer, "model {}, positions and note {given:?}", m.line());
    assert_eq!(lent.numbering, expected.numbering, "numbering of model {}", m.line());
    assert_eq!(lent.pack, expected.pack, "pack of model {}, positions and note {given:?}", m.line());
    assert_eq!(lent.order, expected.order, "order of model {}", m.line());
    assert_eq!(lent.places, expected.places, "places after model {}", m.line());
    (answer, lent)
}

/// The order of an accepted packing has each number below T once, and names the triangles that unpacking builds.
fn ordered(m: &Model, size: usize, after: &Buffers) {
    let order = &after.order[..m.list.len() / 3];
    let mut sorted = order.to_vec();
    sorted.sort_unstable();
    assert!(sorted.iter().enumerate().all(|(i, &n)| usize::from(n) == i), "order {order:?} of model {}", m.line());
    let (mut built, mut places) = (vec![0; m.list.len()], vec![Place::default(); 1_024]);
    unpack(&after.pack[..size], &mut built, &mut places).expect("a pack");
    for (&n, b) in order.iter().zip(built.chunks(3)) {
        let [x, y, z] = [0, 1, 2].map(|i| after.numbering[usize::from(m.list[3 * usize::from(n) + i])]);
        assert!([[x, y, z], [y, z, x], [z, x, y]].iter().any(|t| t == b), "triangle {n} is built as {b:?}, model {}", m.line());
    }
}

/// One packing of a model, and the same by the second program's fast engine, which has no order buffer and no 22; then one with positions
/// and one with a note.
fn packing(rng: &mut Rng, m: &Model, fast: &mut Packer, seen: &mut Seen) {
    let long = expected::packed(m, None).map_or(20, |p| p.len());
    let before = buffers(rng, m, long);
    let (answer, after) = alike(m, (None, None), &before);
    count(&mut seen.plain, &answer);
    if let Ok(size) = answer {
        ordered(m, size, &after);
    }
    if answer != Err(22) {
        let mut lent = before;
        let found = fast.pack_at(LEVEL, m.v, &m.list, &mut lent.numbering, &mut lent.places, &mut lent.pack);
        assert_eq!(found, answer, "fast engine, model {}", m.line());
        let same = lent.numbering == after.numbering && lent.pack == after.pack && lent.places == after.places;
        assert!(same, "fast engine, buffers of model {}", m.line());
    }
    if matches!(answer, Ok(_) | Err(11)) {
        let (ops, chosen) = expected::choose(m.v, &m.list, LIMITS).expect("a packing");
        kinds::note_all(&mut seen.kinds, expected::begin(chosen.book.counts, m.list.len(), 1_024).expect("counts"), &ops);
    }
    with_positions(rng, m, long, seen);
    noted(rng, m, long, seen);
}

/// Positions for a model, half of which do not fit, in some way.
fn some_positions(rng: &mut Rng, m: &Model) -> (Vec<i32>, Option<&'static str>) {
    let mut positions = gen02::positions(rng, (m.v as usize).min(5_000));
    let unfit = (rng.chance(1, 2) && !positions.is_empty()).then(|| UNFIT[rng.below(UNFIT.len())]);
    if let Some((_, spoil)) = unfit {
        spoil(rng, &mut positions);
    }
    (positions, unfit.map(|(way, _)| way))
}

/// One packing of a model with positions, some of which do not fit; without them its pack has so many bytes.
fn with_positions(rng: &mut Rng, m: &Model, long: usize, seen: &mut Seen) {
    let (positions, unfit) = some_positions(rng, m);
    let given = (Some(&positions[..]), None);
    let before = buffers(rng, m, long + added(given));
    let (answer, after) = alike(m, given, &before);
    match (unfit, answer) {
        (None, Ok(size)) => follows(m, given, &before, size, &after),
        (Some(way), Err(23)) => kinds::count(&mut seen.ways, way),
        _ => {}
    }
    count(if unfit.is_some() { &mut seen.unfit } else { &mut seen.fit }, &answer);
}

/// One packing of a model with a note of any kind, and with positions or without.
fn noted(rng: &mut Rng, m: &Model, long: usize, seen: &mut Seen) {
    let (positions, unfit) = some_positions(rng, m);
    let positions = rng.chance(2, 3).then_some(&positions[..]);
    let ways = note_ways();
    let (way, change) = ways[rng.below(ways.len())];
    let mut note = random_note(rng);
    change(rng, &mut note);
    let given = (positions, Some(&note[..]));
    let before = buffers(rng, m, long + added(given));
    let (answer, after) = alike(m, given, &before);
    if let Ok(size) = answer {
        follows(m, given, &before, size, &after);
    }
    if matches!(answer, Ok(_) | Err(25)) {
        assert_eq!(answer.is_err(), way.starts_with("25"), "{way}, model {}", m.line());
        kinds::count(&mut seen.notes[usize::from(positions.is_some())], way);
    }
    let kind = positions.map_or(0, |_| 1 + usize::from(unfit.is_some()));
    count(&mut seen.noted[kind], &answer);
}

/// How many bytes positions and a note take in a pack.
fn added((positions, note): Given) -> usize {
    positions.map_or(0, |zs| 3 + 2 * zs.len()) + note.map_or(0, |note| 3 + note.len())
}

/// The pack is that of the list followed by the positions in new numbering and the note, and all else is as without them.
fn follows(m: &Model, given: Given, before: &Buffers, size: usize, after: &Buffers) {
    let mut lent = before.clone();
    let n = pack(m.v as usize, &m.list, None, lent.lend()).expect("a pack");
    let mut whole = lent.pack[..n].to_vec();
    if let (Some(positions), _) = given {
        let mut renumbered = vec![0; positions.len()];
        for (old, &new) in lent.numbering[..m.v as usize].iter().enumerate() {
            renumbered[3 * usize::from(new)..][..3].copy_from_slice(&positions[3 * old..][..3]);
        }
        whole = with_field(&whole, &contents_of(&renumbered));
    }
    if let (_, Some(note)) = given {
        whole = with_note(&whole, note);
    }
    assert!(after.pack[..size] == whole && after.pack[size..] == before.pack[size..], "pack of {}, {given:?}", m.line());
    lent.pack.clone_from(&after.pack);
    assert!(unchanged(&lent, after), "buffers of model {}, {given:?}", m.line());
}

/// Models that 7, 9, 10, 11 or nothing refuses, each with short and long buffers in every combination, without positions, with such as
/// fit and with others, and with notes likewise: the first refusal in the order 7, 8, 22, 23, 25, 9 to 11 is answered, and what is not
/// past 25 changes nothing.
pub fn faults_together(rng: &mut Rng) -> (usize, Tally) {
    let mut tally = Tally::new();
    let tetrahedron = Model { v: 4, list: vec![0, 1, 2, 1, 0, 3, 2, 1, 3, 0, 2, 3] };
    let pinched = Model { v: 5, list: vec![0, 1, 2, 0, 3, 4] };
    let branches = std::iter::repeat_with(|| gen::branches(rng, 101)).flatten().next().expect("branches");
    for (m, own) in [(tetrahedron, 0), (pinched, 7), (gen::fan(1_025), 9), (branches, 10)] {
        let t = m.list.len() / 3;
        let fit = gen02::positions(rng, m.v as usize);
        let unfit = [&fit[1..], &[-2_049]].concat();
        for positions in [None, Some(&fit[..]), Some(&unfit)] {
            for note in [None, Some(0), Some(64), Some(65)] {
                let note = note.map(|n| vec![9; n]);
                let each = (0..32).map(|i| ([1, 2, 4].map(|bit| i & bit != 0), [0, t - 1, t, t + 1][i / 8]));
                each.for_each(|(short, order)| count(&mut tally, &fault(&m, own, (positions, note.as_deref()), short, order)));
            }
        }
    }
    met(&tally, &[0, 7, 8, 9, 10, 11, 22, 23, 25]);
    (tally.values().sum(), tally)
}

/// A model that is refused by its own number, or by none, with too few numbering entries, place records or bytes, or none of these, and
/// so many order entries.
fn fault(m: &Model, own: Refusal, given: Given, short: [bool; 3], order: usize) -> Result<usize, Refusal> {
    let [few_numbers, few_records, few_bytes] = short;
    let long = expected::packed(m, None).map_or(4_000, |p| p.len()) + added(given);
    let before = Buffers {
        numbering: vec![7; m.v as usize - usize::from(few_numbers)],
        pack: vec![5; long - usize::from(few_bytes)],
        order: vec![9; order],
        places: used_places(1_024 - usize::from(few_records)),
    };
    let (answer, after) = alike(m, given, &before);
    let expected = match own {
        7 => 7,
        _ if few_numbers || few_records => 8,
        _ if order < m.list.len() / 3 => 22,
        _ if given.0.is_some_and(|zs| zs.last() == Some(&-2_049)) => 23,
        _ if given.1.is_some_and(|note| !(1..=64).contains(&note.len())) => 25,
        0 if few_bytes => 11,
        own => own,
    };
    assert_eq!(answer.err().unwrap_or(0), expected, "model {}", m.line());
    assert!(!matches!(expected, 7 | 8 | 22 | 23 | 25) || unchanged(&before, &after), "{expected} changed a buffer, model {}", m.line());
    answer
}

fn unchanged(before: &Buffers, after: &Buffers) -> bool {
    let (b, a) = (before, after);
    b.numbering == a.numbering && b.pack == a.pack && b.order == a.order && b.places == a.places
}
