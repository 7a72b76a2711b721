//! The building calls compared with the builder's book of the second program.

use crate::{count, met, Tally};
use compare::expected::{self, LEVEL};
use compare::kinds::{self, Kinds};
use compare::Building;
use cutborder::book::Book;
use cutborder::gen;
use cutborder::ops::{Counts, Op};
use cutborder::rng::Rng;
use cutborder::Place;

/// Lists of calls, the second program's and our own; a beginning begins a list.
const LISTS: [&str; 2] = [include_str!("../../../reference/vectors/calls.txt"), include_str!("../../definitions/calls.txt")];

/// One of the three calls.
enum Call {
    Begin(Counts),
    Operate(Op),
    Finish,
}

/// A call and the buffers' lengths, from a line of the second program's protocol.
fn parsed(line: &str) -> (Call, Option<(usize, usize)>) {
    let w: Vec<&str> = line.split(' ').collect();
    let n = |i: usize| w[i].parse::<u32>().expect("a number");
    match w[0] {
        "begin" => (Call::Begin(Counts { v: n(1), t: n(2), places: n(3), loops: n(4) }), Some((n(5) as usize, n(6) as usize))),
        "finish" => (Call::Finish, None),
        _ => (Call::Operate(expected::operation(&w)), None),
    }
}

/// The builder's state and what it holds of the book, all compared.
fn same(b: &Building, book: &Book) {
    let s = &b.state;
    let found = [s[4], s[6], s[7], s[8], s[9], s[10], s[11], s[12]].map(u32::from);
    let expected =
        [book.used, book.peak_places, book.peak_loops, book.edges(), book.starts, book.unions, book.rims, book.live.len() as u32];
    assert_eq!(found, expected, "counts");
    assert_eq!(b.rings(), book.live, "rings");
    let t = 3 * book.triangles.len();
    assert_eq!(s[5] as usize, book.triangles.len(), "triangles");
    assert_eq!(b.triangles[..t], book.triangles.concat(), "triangle buffer");
}

/// A beginning of the builder and of the book; whether it is refused.
fn begin(b: &mut Building, book: &mut Option<Book>, c: Counts, tally: &mut Tally) -> bool {
    let before = b.clone();
    let expected = expected::begin(c, b.triangles.len(), b.places.len());
    let answer = b.begin(c);
    assert_eq!(answer, expected.as_ref().map(|_| ()).map_err(|&n| n), "{c:?}");
    count(tally, &answer);
    if let Ok(begun) = expected {
        assert!(b.places[..1_024].iter().all(|&x| x == Place::default()), "records after {c:?}");
        assert_eq!(b.places[1_024..], before.places[1_024..], "records beyond after {c:?}");
        assert_eq!(b.triangles, before.triangles, "triangles after {c:?}");
        *book = Some(begun);
    }
    answer.is_err()
}

/// An operation of the builder and of the book; whether it is refused.
fn operate(b: &mut Building, book: &mut Option<Book>, op: Op, tally: &mut Tally, kinds: &mut Kinds) -> bool {
    if let Some(x) = &book {
        kinds::note(kinds, x, op);
    }
    let expected = book.as_mut().map_or(Err(21), |x| x.op(op));
    let answer = b.operate(op);
    assert_eq!(answer, expected, "{op:?}");
    count(tally, &answer);
    answer.is_err()
}

/// A list of calls; the answers are counted.
fn list(rng: &mut Rng, lines: &[String], tally: &mut Tally, kinds: &mut Kinds) -> usize {
    let Some((entries, records)) = lines.iter().find_map(|l| parsed(l).1) else { return 0 };
    let mut b = Building::new(entries, records, rng.below(65_536) as u16);
    let mut book: Option<Book> = None;
    // Never begun: 21.
    let answer = b.operate(Op::Start);
    assert_eq!((answer, b.finish().err()), (Err(21), Some(21)));
    count(tally, &answer);
    for (i, line) in lines.iter().enumerate() {
        let before = b.clone();
        let refused = match parsed(line).0 {
            Call::Begin(c) => begin(&mut b, &mut book, c, tally),
            Call::Operate(o) => operate(&mut b, &mut book, o, tally, kinds),
            Call::Finish => {
                let answer = b.finish();
                assert_eq!(answer, book.as_ref().map_or(Err(21), |x| x.finish()), "{line}");
                count(tally, &answer);
                true
            }
        };
        if refused {
            unchanged(&b, &before, line);
        }
        if rng.chance(1, 4) {
            meaningless(rng, &mut b, book.is_some(), tally);
        }
        // The book counts its edges anew: of a large model now and then only.
        if let Some(x) = book.as_ref().filter(|x| x.triangles.len() < 40 || i % 16 == 0 || i + 1 == lines.len()) {
            same(&b, x);
        }
    }
    lines.len()
}

/// A call left the state and both buffers as they were.
fn unchanged(b: &Building, before: &Building, call: &str) {
    assert!(b.state == before.state && b.triangles == before.triangles && b.places == before.places, "changed by {call}");
}

/// Calls that name no operation or counts of more than 16 bits: 16, or 21 before the first beginning, and 13.
fn meaningless(rng: &mut Rng, b: &mut Building, begun: bool, tally: &mut Tally) {
    let before = b.clone();
    let far = |rng: &mut Rng| [65_536, 65_537, 65_538, 131_072, u32::MAX][rng.below(5)];
    let near = rng.below(4) as u32;
    let (code, p, j) = match rng.below(4) {
        0 => (8 + [0, 1, 7, 65_528, 65_529, u32::MAX - 8][rng.below(6)], near, near),
        1 => (4, near, far(rng)),
        2 => (6, far(rng), near),
        _ => (6, near, far(rng)),
    };
    let answer = b.operate_coded(code, p, j);
    assert_eq!(answer, Err(if begun { 16 } else { 21 }), "code {code} with {p} and {j}");
    count(tally, &answer);
    unchanged(b, &before, "what is no operation");
    let mut counts = [3, 1, 3, 1];
    counts[rng.below(4)] += far(rng).min(u32::MAX - 3);
    let answer = b.begin(Counts { v: counts[0], t: counts[1], places: counts[2], loops: counts[3] });
    assert_eq!(answer, Err(13), "counts {counts:?}");
    count(tally, &answer);
    unchanged(b, &before, "counts of more than 16 bits");
}

/// How many calls, and how many lists.
pub fn lists(rng: &mut Rng, rounds: usize, kinds: &mut Kinds) -> (usize, usize, Tally) {
    let mut tally = Tally::new();
    let (mut n, mut known) = (0, Vec::<Vec<String>>::new());
    for line in LISTS.iter().flat_map(|text| text.lines()).filter(|l| !l.starts_with('#')) {
        if line.starts_with("begin") {
            known.push(Vec::new());
        }
        known.last_mut().expect("a beginning").push(line.to_owned());
    }
    for lines in &known {
        n += list(rng, lines, &mut tally, kinds);
    }
    for i in 0..rounds {
        let lines = expected::random_calls(rng, [6, 20, 60, 300][i % 4]);
        n += list(rng, &lines, &mut tally, kinds);
    }
    met(&tally, &[0, 13, 14, 15, 16, 17, 18, 19, 20, 21]);
    (n, rounds + known.len(), tally)
}

/// Whether a live loop has a place with both edges marked.
fn between_marks(b: &Building) -> bool {
    b.rings().iter().any(|r| (0..r.len()).any(|i| !r[i].open && !r[(i + 1) % r.len()].open))
}

/// Whether 21 lets a state pass, by its sentence, but for places with both edges marked.
fn passes_but_for_marks(b: &Building) -> bool {
    let s = |i: usize| b.state[i] as usize;
    let (v, t, places, loops) = (s(0), s(1), s(2), s(3));
    let ranges = (3..=4_096).contains(&v) && (1..=8_192).contains(&t) && (3..=1_024).contains(&places) && (1..=100).contains(&loops);
    if !ranges || b.triangles.len() < 3 * t || b.places.len() < 1_024 {
        return false;
    }
    if s(4) > v || s(5) > t || s(6) > places || s(7) > loops || s(12) > loops || (8..12).any(|i| s(i) > 3 * t) {
        return false;
    }
    if (0..s(12)).map(|l| s(113 + l)).sum::<usize>() > places {
        return false;
    }
    let mut met = vec![false; 1_024];
    for l in 0..s(12) {
        let first = s(13 + l);
        let mut at = first;
        if s(113 + l) == 0 || first >= 1_024 || !b.places[first].open {
            return false;
        }
        for _ in 0..s(113 + l) {
            if at >= 1_024 || std::mem::replace(&mut met[at], true) {
                return false;
            }
            let (vertex, after) = (b.places[at].vertex, b.places[at].after as usize);
            if after >= 1_024 || b.places[after].before as usize != at || vertex as usize >= s(4) {
                return false;
            }
            at = after;
        }
        if at != first {
            return false;
        }
    }
    b.triangles[..3 * s(5)].iter().all(|&x| (x as usize) < s(4))
}

/// A change of a state, its records or its triangles.
fn damage(rng: &mut Rng, b: &mut Building) {
    let near = |rng: &mut Rng, x: u16| match rng.below(6) {
        0 => rng.below(65_536) as u16,
        1 => rng.below(1_100) as u16,
        2 => 0,
        3 => x.wrapping_sub(1),
        _ => x.wrapping_add(1),
    };
    match rng.below(5) {
        0 => {
            let i = rng.below(13);
            b.state[i] = near(rng, b.state[i]);
        }
        1 => {
            let i = [13, 113][rng.below(2)] + rng.below((b.state[12] as usize).clamp(1, 100));
            b.state[i] = near(rng, b.state[i]);
        }
        2 | 3 => {
            let live = (b.state[12] as usize).clamp(1, 100);
            let mut at = b.state[13 + rng.below(live)] as usize % 1_024;
            for _ in 0..rng.below(4) {
                at = b.places[at].after as usize % 1_024;
            }
            let place = &mut b.places[at];
            match rng.below(4) {
                0 => place.vertex = near(rng, place.vertex),
                1 => place.before = near(rng, place.before),
                2 => place.after = near(rng, place.after),
                _ => place.open = !place.open,
            }
        }
        _ => {
            if !b.triangles.is_empty() {
                let i = rng.below(b.triangles.len());
                b.triangles[i] = near(rng, b.triangles[i]);
            }
        }
    }
}

/// What 21 says of a state: it passes, a place between two marked edges is its only fault, or it has another.
enum Fault {
    None,
    BetweenMarks,
    Other,
}

/// Counts of a walk, some of them larger.
fn ample(rng: &mut Rng, walk: &gen::Walk) -> Counts {
    let c = walk.counts();
    let more = |rng: &mut Rng, n: u32| rng.below(n as usize) as u32;
    Counts {
        v: (c.v + more(rng, 3)).clamp(3, 4_096),
        t: (c.t + more(rng, 3)).clamp(1, 8_192),
        places: (c.places + more(rng, 3)).clamp(3, 1_024),
        loops: (c.loops + more(rng, 2)).clamp(1, 100),
    }
}

/// What 21 says of a state.
fn fault(b: &Building) -> Fault {
    if !passes_but_for_marks(b) {
        Fault::Other
    } else if between_marks(b) {
        Fault::BetweenMarks
    } else {
        Fault::None
    }
}

/// An operation of the walk, or any.
fn some_op(rng: &mut Rng, b: &Building, walk: &gen::Walk, book: &Book) -> Op {
    let places = b.state[113 + (b.state[12] as usize).clamp(1, 100) - 1];
    let near = Op::Split(u32::from(places.saturating_sub(2)));
    let some = [Op::New, Op::Border, Op::Forward, Op::Backward, Op::Split(1), Op::Split(2), near, Op::Union(1, 0), Op::Close, Op::Start];
    if rng.chance(1, 2) && walk.ops.len() > book.triangles.len() {
        walk.ops[rng.below(walk.ops.len())]
    } else {
        some[rng.below(some.len())]
    }
}

/// An operation on a state that passes 21, and on the book with what the state says; its edges are those of the triangles built.
fn passed_call(b: &mut Building, book: &mut Book, built: &[u16], op: Op, tally: &mut Tally) {
    let (rings, state) = (b.rings(), b.state);
    book.counts = Counts { v: b.state[0].into(), t: b.state[1].into(), places: b.state[2].into(), loops: b.state[3].into() };
    book.used = b.state[4].into();
    book.live = rings.clone();
    let comparable = b.triangles == built && b.state[5] as usize == book.triangles.len() && rings.first().map_or(true, |r| r.len() > 1);
    let expected = comparable.then(|| book.test(op));
    let answer = b.operate(op);
    assert_ne!(answer, Err(21), "{op:?} on {state:?}");
    if let Some(n) = expected {
        assert_eq!(answer.map_or_else(|n| n, |_| 0), n, "{op:?} on {state:?}");
    }
    count(tally, &answer);
}

/// A state that is built up, damaged, and called once more.
fn damaged_call(rng: &mut Rng, tally: &mut Tally) -> Fault {
    let size = rng.range(1, 30);
    let w = gen::walk_at(LEVEL, rng, size, 100);
    let c = ample(rng, &w);
    let mut b = Building::new(3 * c.t as usize, 1_024 + rng.below(2), 0);
    let mut book = Book::empty_at(LEVEL, c);
    b.begin(c).expect("a beginning");
    for &o in &w.ops[..rng.below(w.ops.len() + 1)] {
        let built = book.op(o).expect("an operation");
        assert_eq!(b.operate(o), Ok(built));
    }
    let built = b.triangles.clone();
    for _ in 0..rng.range(1, 2) {
        damage(rng, &mut b);
    }
    let (before, fault) = (b.clone(), fault(&b));
    let op = some_op(rng, &b, &w, &book);
    let passes = matches!(fault, Fault::None);
    if passes {
        passed_call(&mut b, &mut book, &built, op, tally);
    } else {
        assert_eq!(b.finish(), Err(21), "finish of {:?}", before.state);
        let answer = b.operate(op);
        assert_eq!(answer, Err(21), "{op:?} on {:?}", before.state);
        count(tally, &answer);
    }
    if !passes || b.state == before.state {
        unchanged(&b, &before, "a refused operation");
    }
    fault
}

/// How many states, how many pass, and how many have a place between two marked edges and no other fault.
pub fn damaged(rng: &mut Rng, rounds: usize) -> (usize, usize, usize, Tally) {
    let mut tally = Tally::new();
    let (mut passed, mut between) = (0, 0);
    for _ in 0..rounds {
        match damaged_call(rng, &mut tally) {
            Fault::None => passed += 1,
            Fault::BetweenMarks => between += 1,
            Fault::Other => (),
        }
    }
    met(&tally, &[0, 16, 17, 18, 21]);
    assert!(between > 0, "no state had a place between two marked edges alone");
    (rounds, passed, between, tally)
}
