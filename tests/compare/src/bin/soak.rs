//! One long life: packing, reading, checking, searching and building of damaged input, mixed in any order, in one process.
//! `soak SEED TURNS`
//!
//! All calls are lent the same buffers, which nobody clears, as on a machine that runs for years; a builder goes on between the other
//! calls. Each answer, and what each buffer holds afterwards, is the second program's, whose buffers have the same life. At the end the
//! answers of each call are told, and the process has no more memory than at the beginning.

use compare::expected::{self, LEVEL};
use compare::{bench, check, link, melt, narrow, pack_whole, search, unpack, volume, Building, Links, Memory, LINKS};
use cutborder::across::across;
use cutborder::book::Book;
use cutborder::gen::{self, Model};
use cutborder::ops::{Counts, Op};
use cutborder::plain::{self, PackRooms};
use cutborder::rng::Rng;
use cutborder::{gen02, Place, Refusal};
use std::collections::BTreeMap;
use std::time::Instant;

/// The answers that each call can give. Those of a life of at least `LONG` calls are all met.
const ANSWERS: [(&str, &[u8]); 14] = [
    ("check", &[0, 1, 2, 3, 4, 5, 6, 7]),
    ("link", &[0, 1, 2, 3, 4]),
    ("search", &[0, 1]),
    ("pack", &[0, 1, 2, 3, 4, 5, 6, 7, 8, 9, 10, 11, 22]),
    ("pack with positions", &[0, 1, 2, 3, 4, 5, 6, 7, 8, 9, 10, 11, 22, 23]),
    ("pack with a note", &[0, 1, 2, 3, 4, 5, 6, 7, 8, 9, 10, 11, 22, 25]),
    ("pack with both", &[0, 1, 2, 3, 4, 5, 6, 7, 8, 9, 10, 11, 22, 23, 25]),
    ("unpack", &[0, 12, 13, 14, 15, 16, 17, 18, 19, 20, 23, 25]),
    ("volume", &[0, 12, 13, 14, 15, 16, 17, 18, 19, 20, 23, 24, 25]),
    ("bench", &[0, 12, 13, 14, 15, 16, 17, 18, 19, 20, 23, 25]),
    ("furnace", &[0, 12, 13, 15, 16, 17, 19, 23, 24, 25, 26]),
    ("begin", &[0, 13, 14]),
    ("operation", &[0, 16, 17, 18, 21]),
    ("finish", &[0, 15, 19, 20, 21]),
];
const LONG: u64 = 300_000;

/// What was answered, by call and number.
type Tally = BTreeMap<(&'static str, u8), u64>;

/// The buffers of a life, longer than any call asks for.
#[derive(Clone, PartialEq)]
struct Buffers {
    triangles: Vec<u16>,
    places: Vec<Place>,
    numbering: Vec<u16>,
    pack: Vec<u8>,
    order: Vec<u16>,
}

impl Buffers {
    fn new() -> Buffers {
        let place = Place { vertex: 9, before: 9, after: 9, open: true };
        Buffers {
            triangles: vec![7; 24_640],
            places: vec![place; 1_088],
            numbering: vec![7; 4_160],
            pack: vec![5; 92_000],
            order: vec![3; 8_256],
        }
    }

    fn rooms(&mut self, [numbering, pack, order, records]: [usize; 4]) -> PackRooms<'_> {
        PackRooms {
            numbering: &mut self.numbering[..numbering],
            places: &mut self.places[..records],
            out: &mut self.pack[..pack],
            order: &mut self.order[..order],
        }
    }
}

/// What the calls are made of: models, sound and not, with positions; packs, sound and not; and operations.
struct Stock {
    models: Vec<(Model, Vec<i32>)>,
    packs: Vec<Vec<u8>>,
    walks: Vec<(Counts, Vec<Op>)>,
}

/// A pack of a model with a vertex that has more than one fan, and nothing else wrong.
fn two_fans(rng: &mut Rng) -> Vec<u8> {
    loop {
        let b = expected::random_pack(rng, 20);
        let t = expected::stated_triangles(&b);
        if expected::unpack(&b, &mut vec![0; 3 * t], &mut vec![Place::default(); 1_024]) == Err(20) {
            return b;
        }
    }
}

impl Stock {
    fn new(rng: &mut Rng) -> Stock {
        let mut models = vec![gen::fan(1_025), std::iter::repeat_with(|| gen::branches(rng, 101)).flatten().next().expect("branches")];
        for i in 0..500 {
            let max_t = [4, 10, 30, 100][i % 4];
            models.push(match i % 5 {
                0 => gen::pinched(rng, max_t),
                1 => gen::fan_split(&gen::closed_surface(rng, max_t)),
                _ => gen::sound(rng, max_t),
            });
        }
        let models: Vec<_> = models.into_iter().filter(|m| !m.list.is_empty()).collect();
        let models: Vec<_> = models.into_iter().map(|m| (m.clone(), gen02::positions(rng, m.v as usize))).collect();
        let sound = models.iter().filter_map(|(m, zs)| expected::packed(m, (m.v % 3 > 0).then_some(&zs[..])));
        let mut packs: Vec<Vec<u8>> = sound.collect();
        for i in 0..1_000 {
            packs.push(match i % 3 {
                0 => expected::random_pack(rng, 40),
                1 => expected::random_whole_pack(rng),
                _ => expected::random_free_pack(rng),
            });
        }
        let mut walks = Vec::new();
        for i in 0..200 {
            let w = gen::walk_at(LEVEL, rng, 1 + i % 20, 100);
            walks.push((w.counts(), w.ops));
        }
        for _ in 0..20 {
            let b = two_fans(rng);
            let f = expected::fields(&b).expect("a pack");
            walks.push((f.counts, gen::read_ops(f.ops)));
            packs.push(b);
        }
        Stock { models, packs, walks }
    }
}

/// A builder, the book of it, and the operations that are left of its walk.
struct Site {
    builder: Building,
    book: Book,
    walk: usize,
    next: usize,
}

struct Life {
    rng: Rng,
    stock: Stock,
    ours: Buffers,
    second: Buffers,
    memory: Memory,
    links: Box<Links>,
    site: Site,
    /// The input of a call, used again and again.
    bytes: Vec<u8>,
    model: Model,
    tally: Tally,
}

/// Changes some bytes in one way.
fn damage(rng: &mut Rng, packs: &[Vec<u8>], b: &mut Vec<u8>) {
    let n = b.len();
    match rng.below(8) {
        0 => b.truncate(rng.below(n + 1)),
        1 => (0..rng.range(1, 70)).for_each(|_| b.push(rng.next() as u8)),
        2 | 3 if n > 0 => b[rng.below(n)] ^= 1 << rng.below(8),
        4 if n > 10 => b[rng.range(3, 10)] = rng.below(12) as u8,
        5 if n > 0 => b[rng.below(n.min(20))] ^= 1 << rng.below(8),
        6 => {
            let other = rng.below(packs.len());
            exchange(rng, &packs[other], b);
        }
        _ => {
            let note = if rng.chance(1, 3) { expected::unfit_note(rng) } else { expected::random_note(rng) };
            let noted = expected::with_note(b, &note);
            b.splice(.., noted);
        }
    }
}

/// The fields of a pack, as far as it has any.
fn parts(pack: &[u8]) -> Vec<&[u8]> {
    let (mut all, mut rest) = (Vec::new(), pack);
    while rest.len() > 2 {
        let n = (3 + usize::from(rest[1]) * 256 + usize::from(rest[2])).min(rest.len());
        let (field, after) = rest.split_at(n);
        all.push(field);
        rest = after;
    }
    all
}

/// Two fields change places, or one is left out, there twice, or that of another pack.
fn exchange(rng: &mut Rng, other: &[u8], b: &mut Vec<u8>) {
    let whole = b.clone();
    let (mut fields, others) = (parts(&whole), parts(other));
    if fields.is_empty() || others.is_empty() {
        return;
    }
    let (i, j) = (rng.below(fields.len()), rng.below(fields.len()));
    match rng.below(4) {
        0 => fields.swap(i, j),
        1 => drop(fields.remove(i)),
        2 => fields.insert(j, fields[i]),
        _ => fields[i] = others[i.min(others.len() - 1)],
    }
    b.splice(.., fields.concat());
}

/// One fault in a list.
fn fault(rng: &mut Rng, m: &mut Model) {
    let n = m.list.len();
    let (i, t) = (rng.below(n), 3 * rng.below(n / 3));
    match rng.below(9) {
        0 => m.list.truncate(rng.below(n + 1)),
        1 => m.v = [0, 2, 4_097, 65_536, u64::MAX][rng.below(5)],
        2 => m.v += 1,
        3 => m.v -= 1,
        4 => m.list[i] = rng.below(m.v as usize + 1) as u16,
        5 => m.list.swap(i, t),
        6 => m.list.swap(t, t + 1),
        7 => m.list.extend_from_within(t..t + 3),
        _ if rng.chance(1, 20) => m.list.resize(24_579, 1),
        _ => m.list.truncate(n - 3),
    }
}

/// A length: mostly what is needed, else less or more.
fn about(rng: &mut Rng, needed: usize, most: usize) -> usize {
    let n = match rng.below(24) {
        0 => rng.below(needed + 1),
        1 => needed.saturating_sub(1),
        2 => needed + rng.below(60),
        _ => needed,
    };
    n.min(most)
}

impl Life {
    fn new(seed: u64) -> Life {
        let mut rng = Rng::new(seed);
        let stock = Stock::new(&mut rng);
        let c = stock.walks[0].0;
        let mut builder = Building::new(24_576, 1_024, 9);
        builder.begin(c).expect("a beginning");
        let site = Site { builder, book: expected::begin(c, 24_576, 1_024).expect("a beginning"), walk: 0, next: 0 };
        Life {
            rng,
            stock,
            ours: Buffers::new(),
            second: Buffers::new(),
            memory: [0xaa; 1_024],
            links: Box::new([0; LINKS]),
            site,
            bytes: Vec::new(),
            model: Model { v: 3, list: Vec::new() },
            tally: Tally::new(),
        }
    }

    fn count<T>(&mut self, call: &'static str, answer: &Result<T, Refusal>) {
        *self.tally.entry((call, answer.as_ref().err().copied().unwrap_or(0))).or_default() += 1;
    }

    /// A pack of the stock, damaged once or twice, or not at all.
    fn choose_pack(&mut self) {
        let packs = &self.stock.packs;
        self.bytes.clear();
        self.bytes.extend(&packs[self.rng.below(packs.len())]);
        for _ in 0..[0, 1, 1, 2][self.rng.below(4)] {
            damage(&mut self.rng, packs, &mut self.bytes);
        }
    }

    /// One of the calls that read a pack.
    fn read(&mut self) {
        self.choose_pack();
        let b = std::mem::take(&mut self.bytes);
        let t = expected::stated_triangles(&b);
        let (n, r) = (about(&mut self.rng, 3 * t, 24_640), about(&mut self.rng, 1_024, 1_088));
        let (ours, second) = (&mut self.ours, &mut self.second);
        let (ts, ps) = (&mut ours.triangles[..n], &mut ours.places[..r]);
        let (xs, qs) = (&mut second.triangles[..n], &mut second.places[..r]);
        match self.rng.below(4) {
            0 => {
                let answer = expected::unpack(&b, xs, qs);
                assert_eq!(unpack(&b, ts, ps), answer, "unpacking {b:02x?}");
                self.count("unpack", &answer);
            }
            1 => {
                let answer = expected::volume(&b, xs, qs);
                assert_eq!(volume(&b, ts, ps), answer, "volume of {b:02x?}");
                self.count("volume", &answer);
            }
            2 => {
                let answer = expected::bench(&b, xs, qs);
                assert_eq!(bench(&b, ts, ps), answer, "bench reader, {b:02x?}");
                self.count("bench", &answer.0);
            }
            _ => {
                let answer = expected::melt(&b);
                assert_eq!(melt(&b, &mut self.memory), answer, "furnace's reader, {b:02x?}");
                self.count("furnace", &answer);
            }
        }
        self.bytes = b;
    }

    /// A model of the stock, often with a fault. Its positions, a note, and whether they are given.
    fn choose_model(&mut self) -> (Option<Vec<i32>>, Option<Vec<u8>>) {
        let rng = &mut self.rng;
        let (m, positions) = &self.stock.models[if rng.chance(1, 100) { rng.below(2) } else { rng.below(self.stock.models.len()) }];
        self.model.clone_from(m);
        if rng.chance(1, 3) {
            fault(rng, &mut self.model);
        }
        let mut given = positions.clone();
        if rng.chance(1, 6) {
            expected::UNFIT[rng.below(expected::UNFIT.len())].1(rng, &mut given);
        }
        let note = if rng.chance(1, 6) { expected::unfit_note(rng) } else { expected::random_note(rng) };
        (rng.chance(1, 2).then_some(given), rng.chance(1, 2).then_some(note))
    }

    /// One packing.
    fn pack(&mut self) {
        let (positions, note) = self.choose_model();
        let m = std::mem::replace(&mut self.model, Model { v: 3, list: Vec::new() });
        let rng = &mut self.rng;
        let ample = if rng.chance(1, 6) { rng.below(120) } else { 90_000 };
        let (v, t) = ((m.v as usize).min(4_096), m.list.len() / 3);
        let lengths = [about(rng, v, 4_160), ample, about(rng, t, 8_256), about(rng, 1_024, 1_088)];
        let narrowed = positions.as_deref().map(narrow);
        let answer = expected::pack_whole(m.v, &m.list, positions.as_deref(), note.as_deref(), self.second.rooms(lengths));
        let found = pack_whole(m.v as usize, &m.list, narrowed.as_deref(), note.as_deref(), self.ours.rooms(lengths));
        assert_eq!(found, answer, "model {}, positions {positions:?}, note {note:?}", m.line());
        let call = match (positions.is_some(), note.is_some()) {
            (false, false) => "pack",
            (true, false) => "pack with positions",
            (false, true) => "pack with a note",
            (true, true) => "pack with both",
        };
        self.count(call, &answer);
        self.model = m;
    }

    /// A list checked, linked, and searched for an edge if it is linked.
    fn check(&mut self) {
        self.choose_model();
        let m = std::mem::replace(&mut self.model, Model { v: 3, list: Vec::new() });
        let answer = plain::check(m.v, &m.list);
        assert_eq!(check(m.v as usize, &m.list), answer, "list {}", m.line());
        self.count("check", &answer);
        let linked = answer.or_else(|n| if n > 4 { Ok(()) } else { Err(n) });
        assert_eq!(link(m.v as usize, &m.list, &mut self.links), linked, "linking {}", m.line());
        self.count("link", &linked);
        if linked.is_ok() {
            let [p, q] = [0; 2].map(|_| m.list[self.rng.below(m.list.len())]);
            let found = across(&m.list, p, q);
            assert_eq!(search(&m.list, &self.links, p, q), found, "{p}→{q} in {}", m.line());
            self.count("search", &found.map_or(Ok(()), |_| Err(1)));
        }
        self.model = m;
    }

    /// A step of the builder: an operation of its walk or any other, a finish, or a call that 13, 14 or 21 refuses; a beginning at the
    /// walk's end.
    fn build(&mut self) {
        let (rng, site) = (&mut self.rng, &mut self.site);
        let ops = &self.stock.walks[site.walk].1;
        match rng.below(10) {
            0 => self.finish(),
            1 if rng.chance(1, 2) => self.begin_refused(),
            1 => self.disturb(),
            n => {
                // Seldom another one than the walk's that is accepted.
                let other = Some(gen::random_op(rng)).filter(|&o| n < 4 && (site.book.test(o) != 0 || rng.chance(1, 20)));
                let o = other.or_else(|| ops.get(site.next).copied()).unwrap_or_else(|| gen::random_op(rng));
                let follows = site.next < ops.len() && o == ops[site.next];
                let answer = site.book.op(o);
                assert_eq!(site.builder.operate(o), answer, "{o:?}");
                // Another that is accepted leads off the walk, and so does its own if that is refused.
                site.next = if follows != answer.is_ok() { ops.len() } else { site.next + usize::from(follows) };
                self.count("operation", &answer);
            }
        }
        if self.site.next == self.stock.walks[self.site.walk].1.len() && self.rng.chance(1, 6) {
            self.finish();
            self.begin();
        }
    }

    fn finish(&mut self) {
        let answer = self.site.book.finish();
        assert_eq!(self.site.builder.finish(), answer);
        self.count("finish", &answer);
    }

    /// A state that no building comes to, for two calls.
    fn disturb(&mut self) {
        let b = &mut self.site.builder;
        let i = [0, 1, 2, 3, 12][self.rng.below(5)];
        let kept = std::mem::replace(&mut b.state[i], 65_535);
        let (operated, finished) = (b.operate(gen::random_op(&mut self.rng)), b.finish());
        assert_eq!((&operated, &finished), (&Err(21), &Err(21)), "number {i} of the state");
        b.state[i] = kept;
        self.count("operation", &operated);
        self.count("finish", &finished);
    }

    /// Counts out of range, or nothing but an entry missing for 8,192 triangles: the builder goes on as it was.
    fn begin_refused(&mut self) {
        let (b, short) = (&mut self.site.builder, self.rng.chance(1, 2));
        let c = Counts { v: if short { 4_096 } else { 2 }, t: 8_192, places: 3, loops: 1 };
        let last = b.triangles.pop().expect("an entry");
        let answer = b.begin(c);
        b.triangles.push(last);
        assert_eq!(answer, Err(if short { 14 } else { 13 }));
        self.count("begin", &answer);
    }

    /// A beginning for another walk, at times with a count that is one more.
    fn begin(&mut self) {
        let walk = self.rng.below(self.stock.walks.len());
        let mut c = self.stock.walks[walk].0;
        if self.rng.chance(1, 8) {
            c.v = (c.v + 1).min(4_096);
        }
        let book = expected::begin(c, 24_576, 1_024);
        let answer = self.site.builder.begin(c);
        assert_eq!(answer, book.as_ref().map(|_| ()).map_err(|&n| n), "{c:?}");
        self.count("begin", &answer);
        if let Ok(book) = book {
            self.site = Site { builder: std::mem::replace(&mut self.site.builder, Building::new(0, 0, 0)), book, walk, next: 0 };
        }
    }

    /// One turn; all buffers, and what lies beyond what was lent of them, are the second program's at every hundredth, else the beginnings.
    fn turn(&mut self, i: u64) {
        match self.rng.below(8) {
            0 => self.check(),
            1 | 2 => self.pack(),
            3..=5 => self.read(),
            _ => self.build(),
        }
        let (a, b) = (&self.ours, &self.second);
        let begins = a.triangles[..512] == b.triangles[..512] && a.places == b.places && a.order[..512] == b.order[..512];
        assert!(begins && a.numbering[..512] == b.numbering[..512] && a.pack[..1_024] == b.pack[..1_024], "buffers after turn {i}");
        assert!(i % 100 != 0 || a == b, "buffers after turn {i} or one before it");
    }

    /// Fails if a call gave another answer than it can or, in a long life, never one that it can.
    fn told(&self, turns: u64) {
        for (call, answers) in ANSWERS {
            let found: Vec<(u8, u64)> = self.tally.iter().filter(|((of, _), _)| *of == call).map(|((_, n), times)| (*n, *times)).collect();
            println!("{call}: {found:?}");
            assert!(found.iter().all(|(n, _)| answers.contains(n)), "no answer of {call}");
            let never: Vec<_> = answers.iter().filter(|n| !found.iter().any(|(of, _)| of == *n)).collect();
            assert!(never.is_empty() || turns < LONG, "never answered by {call}: {never:?}");
        }
    }
}

/// The memory that the process has, in pages.
fn resident() -> u64 {
    let statm = std::fs::read_to_string("/proc/self/statm").expect("/proc/self/statm");
    statm.split(' ').nth(1).and_then(|n| n.parse().ok()).expect("a number of pages")
}

fn main() {
    let args: Vec<u64> = std::env::args().skip(1).filter_map(|a| a.parse().ok()).collect();
    let [seed, turns] = args[..] else {
        eprintln!("usage: soak SEED TURNS");
        std::process::exit(2);
    };
    let mut life = Life::new(seed);
    let start = Instant::now();
    let mut before = 0;
    for i in 0..turns {
        life.turn(i);
        if i == turns / 10 {
            before = resident();
        }
    }
    let (after, took) = (resident(), start.elapsed().as_secs_f64());
    life.told(turns);
    let calls: u64 = life.tally.values().sum();
    println!("{calls} calls in one life, {:.0} a second; {before} pages after a tenth of it, {after} at its end", calls as f64 / took);
    assert!(after <= before + 256, "the process has grown");
}
