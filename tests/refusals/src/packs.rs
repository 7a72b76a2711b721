//! Packs by their number of bytes, then in byte order. Fewer than 14 bytes are not two fields: 12.

use crate::expected::{self, LEVEL};
use cutborder::book::{most_fans, Book};
use cutborder::ops::{encode_ops, pack_bytes, Counts, Op};
use cutborder::{Place, Refusal, MAX_LOOPS, MAX_PLACES, MAX_T, MAX_V};

/// A pack in hexadecimal bytes.
fn text(pack: &[u8]) -> String {
    pack.iter().map(|b| format!("{b:02X}")).collect::<Vec<String>>().join(" ")
}

/// What unpacking answers, 0 for acceptance, with so many triangle entries.
fn unpack(pack: &[u8], entries: usize) -> Refusal {
    let mut triangles = vec![0; entries];
    expected::unpack(pack, &mut triangles, &mut [Place::default(); 1_024]).err().unwrap_or(0)
}

fn unpack_amply(pack: &[u8]) -> Refusal {
    unpack(pack, 3 * expected::stated_triangles(pack))
}

/// What the volume call answers.
fn volume(pack: &[u8]) -> Refusal {
    let mut triangles = vec![0; 3 * expected::stated_triangles(pack)];
    expected::volume(pack, &mut triangles, &mut [Place::default(); 1_024]).err().unwrap_or(0)
}

fn melt(pack: &[u8]) -> Refusal {
    expected::melt(pack).err().unwrap_or(0)
}

/// All counts in byte order, each from its least to one more than its most, within its range.
fn counts(least: Counts, most: Counts) -> impl Iterator<Item = Counts> {
    let to = |least: u32, most: u32, range: usize| least..=(most.max(least) + 1).min(range as u32);
    let (vs, ts) = (to(least.v, most.v, MAX_V), to(least.t, most.t, MAX_T));
    let (ps, ls) = (to(least.places, most.places, MAX_PLACES), to(least.loops, most.loops, MAX_LOOPS));
    vs.flat_map(move |v| {
        let (ps, ls) = (ps.clone(), ls.clone());
        ts.clone().flat_map(move |t| {
            let ls = ls.clone();
            ps.clone().flat_map(move |places| ls.clone().map(move |loops| Counts { v, t, places, loops }))
        })
    })
}

/// The lowest that 13 leaves.
const LEAST: Counts = Counts { v: 3, t: 1, places: 3, loops: 1 };

/// The first pack of two fields, with so many bytes of operations, that is answered so. At most 8n/3 operations stand in n bytes: counts
/// above what these come to are answered as the next above it.
fn first(bytes: usize, answer: impl Fn(&[u8]) -> bool) -> Option<Vec<u8>> {
    let ops = 8 * bytes as u32 / 3;
    let most = Counts { v: 3 * ops, t: ops, places: ops + 2, loops: ops };
    counts(LEAST, most).find_map(|c| {
        let mut packs = (0..1u64 << (8 * bytes)).map(|n| pack_bytes(c, &n.to_be_bytes()[8 - bytes..]));
        packs.find(|pack| answer(pack))
    })
}

fn smallest(answer: impl Fn(&[u8]) -> bool) -> Vec<u8> {
    (0..).find_map(|bytes| first(bytes, &answer)).expect("a pack")
}

/// All complete lists of operations in so many bytes, each with its book.
fn complete(bytes: usize) -> Vec<(Book, Vec<Op>)> {
    let mut found = Vec::new();
    let ample = Counts { v: 4_096, t: 8_192, places: 1_024, loops: 100 };
    let mut waiting = vec![(Book::empty_at(LEVEL, ample), Vec::new(), 8 * bytes)];
    while let Some((book, ops, bits)) = waiting.pop() {
        if !ops.is_empty() && book.live.is_empty() && encode_ops(&ops).len() == bytes {
            found.push((book.clone(), ops.clone()));
        }
        waiting.extend(next(&book, bits).into_iter().map(|(after, op, left)| (after, [&ops[..], &[op]].concat(), left)));
    }
    found
}

/// The operations that are allowed next and leave three bits or more for each live loop.
fn next(book: &Book, bits: usize) -> Vec<(Book, Op, usize)> {
    let places = book.live.first().map_or(0, Vec::len) as u32;
    let plain = [Op::New, Op::Forward, Op::Backward, Op::Border, Op::Close, Op::Start].map(|op| (op, 3));
    let splits = (1..places.max(1)).map(|i| (Op::Split(i), 13));
    let unions = book.live.iter().enumerate().skip(1).flat_map(|(p, l)| (0..l.len()).map(move |j| (Op::Union(p as u32, j as u32), 20)));
    let after = |(op, width): (Op, usize)| {
        let mut after = book.clone();
        let left = bits.checked_sub(width)?;
        after.op(op).ok()?;
        (3 * after.live.len() <= left).then_some((after, op, left))
    };
    plain.into_iter().chain(splits).chain(unions).filter_map(after).collect()
}

/// The smallest pack of complete operations for which this holds.
fn smallest_complete(holds: impl Fn(&Book) -> bool) -> Vec<u8> {
    let pack = |(book, ops): &(Book, Vec<Op>)| {
        let counts = Counts { v: book.used, t: book.triangles.len() as u32, places: book.peak_places, loops: book.peak_loops };
        pack_bytes(counts, &encode_ops(ops))
    };
    (1..).find_map(|bytes| complete(bytes).iter().filter(|(book, _)| holds(book)).map(pack).min()).expect("a pack")
}

pub fn print() {
    println!("12 ");
    let zeros = Counts { v: 0, t: 0, places: 0, loops: 0 };
    let out_of_range = counts(zeros, LEAST).map(|c| pack_bytes(c, &[])).find(|pack| unpack_amply(pack) == 13);
    println!("13 {}", text(&out_of_range.expect("counts")));
    let short = smallest(|pack| unpack(pack, 0) == 14);
    let length = (0..).take_while(|&length| unpack(&short, length) == 14).last().expect("a length");
    println!("14 {}, {length} triangle entries", text(&short));
    for n in 15..=19 {
        println!("{n} {}", text(&smallest(|pack| unpack_amply(pack) == n)));
    }
    println!("20 {}", text(&smallest_complete(|book| most_fans(&book.triangles) > 1)));
    // 23 and 25 come after 20: a field more, without contents, after the smallest pack that is accepted.
    let accepted = smallest_complete(|book| most_fans(&book.triangles) == 1);
    for (n, tag) in [(23, 3), (25, 4)] {
        let pack = [&accepted[..], &[tag, 0, 0]].concat();
        assert_eq!(unpack_amply(&pack), n);
        println!("{n} {}", text(&pack));
    }
    println!("24 {}", text(&smallest(|pack| volume(pack) == 24)));
    let over = Counts { v: 3, t: 1, places: 3, loops: MAX_LOOPS as u32 };
    println!("26 {}", text(&counts(LEAST, over).map(|c| pack_bytes(c, &[])).find(|pack| melt(pack) == 26).expect("counts")));
}
