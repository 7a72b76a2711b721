//! What is expected now: the second program at the level that this project has reached. The tests and the benchmark take it from here.

use cutborder::book::Book;
use cutborder::fields::Fields;
use cutborder::gen::{self, Model};
use cutborder::ops::{encode_ops, pack_bytes, BitWriter, Counts, Op};
use cutborder::plain::{self, Chosen, Given, PackRooms, Trace};
use cutborder::proto;
use cutborder::rng::Rng;
use cutborder::{gen02, note, reader, Answer, Level, Place, Refusal};

/// C-11 to C-16 have landed: packing fills the order buffer, packs may have positions and a note, loops are shortened, and the furnace has
/// a reader of its own; C-12 changes no answer of a call.
pub const LEVEL: Level = Level(16);

/// The limits of the rules on places and loops.
pub const LIMITS: (u32, u32) = (1_024, 100);

/// The operations of a packing, its book and its numbering, within limits on places and loops; the list has passed 1 to 7.
pub fn choose(v: u64, list: &[u16], limits: (u32, u32)) -> Result<(Vec<Op>, Chosen), Refusal> {
    let mut trace = Trace::default();
    let chosen = plain::choose_at(LEVEL, v as u32, list, &mut trace, limits.0, limits.1)?;
    Ok((trace.ops, chosen))
}

/// What packing is given beside the list: positions by old vertex or none, a note or none. C-17, codes, has not landed.
fn given<'a>(positions: Option<&'a [i32]>, note: Option<&'a [u8]>) -> Given<'a> {
    Given { positions, note, ..Given::default() }
}

pub fn pack(v: u64, list: &[u16], positions: Option<&[i32]>, rooms: PackRooms) -> Result<usize, Refusal> {
    pack_whole(v, list, positions, None, rooms)
}

/// The same with a note, if it is given.
pub fn pack_whole(v: u64, list: &[u16], positions: Option<&[i32]>, note: Option<&[u8]>, rooms: PackRooms) -> Result<usize, Refusal> {
    plain::pack_at(LEVEL, v, list, given(positions, note), rooms, &mut Trace::default())
}

/// The fields of a pack, or 12.
pub fn fields(bytes: &[u8]) -> Result<Fields<'_>, Refusal> {
    Fields::split(LEVEL, bytes)
}

/// The triangles that a pack states; 1 if it is none.
pub fn stated_triangles(bytes: &[u8]) -> usize {
    fields(bytes).map_or(1, |f| f.counts.t as usize)
}

pub fn unpack(bytes: &[u8], triangles: &mut [u16], places: &mut [Place]) -> Result<Answer, Refusal> {
    plain::unpack_at(LEVEL, bytes, triangles, places)
}

/// The volume call: what unpacking answers, and six times the volume.
pub fn volume(bytes: &[u8], triangles: &mut [u16], places: &mut [Place]) -> Result<(Answer, i64), Refusal> {
    cutborder::volume::volume(LEVEL, bytes, triangles, places)
}

/// The bench reader: what unpacking answers, and the note as a part of the pack, empty if there is none or the pack is refused.
pub fn bench<'a>(bytes: &'a [u8], triangles: &mut [u16], places: &mut [Place]) -> (Result<Answer, Refusal>, &'a [u8]) {
    note::read(LEVEL, bytes, triangles, places)
}

/// The furnace's own reader: six times the volume.
pub fn melt(bytes: &[u8]) -> Result<i64, Refusal> {
    reader::read(LEVEL, bytes)
}

/// A beginning.
pub fn begin(counts: Counts, entries: usize, records: usize) -> Result<Book, Refusal> {
    Book::begin_at(LEVEL, counts, entries, records)
}

/// A model's pack, with positions by old vertex if they are given; none if it is refused.
pub fn packed(m: &Model, positions: Option<&[i32]>) -> Option<Vec<u8>> {
    gen::packed_at(LEVEL, m, given(positions, None))
}

/// A way to change a list, with its name.
pub type Way<T> = (&'static str, fn(&mut Rng, &mut Vec<T>));

/// Ways to change the positions of one vertex or more so that 23 refuses them.
pub const UNFIT: [Way<i32>; 12] = [
    ("23: none", |_, zs| zs.clear()),
    ("23: any number less", |rng, zs| zs.truncate(rng.below(zs.len()))),
    ("23: a number less", |_, zs| zs.truncate(zs.len() - 1)),
    ("23: a vertex less", |_, zs| zs.truncate(zs.len() - 3)),
    ("23: a number more", |_, zs| zs.push(0)),
    ("23: a vertex more", |_, zs| zs.extend([0; 3])),
    ("23: 2,048", |rng, zs| change_one(rng, zs, 2_048)),
    ("23: -2,049", |rng, zs| change_one(rng, zs, -2_049)),
    ("23: 32,767", |rng, zs| change_one(rng, zs, 32_767)),
    ("23: -32,768", |rng, zs| change_one(rng, zs, -32_768)),
    ("23: the first position", |_, zs| zs[0] = -2_049),
    ("23: the last position", |_, zs| *zs.last_mut().expect("a position") = 2_048),
];

fn change_one(rng: &mut Rng, positions: &mut [i32], z: i32) {
    positions[rng.below(positions.len())] = z;
}

/// Ways to change a note so that 25 refuses it; some have a length whose low byte would do.
pub const UNFIT_NOTES: [Way<u8>; 9] = [
    ("25: no byte", |_, note| note.clear()),
    ("25: 65 bytes", |_, note| note.resize(65, 0)),
    ("25: 66 bytes", |_, note| note.resize(66, 4)),
    ("25: 128 bytes", |_, note| note.resize(128, 0)),
    ("25: 256 bytes", |_, note| note.resize(256, 9)),
    ("25: 257 bytes", |_, note| note.resize(257, 0)),
    ("25: 320 bytes", |_, note| note.resize(320, 9)),
    ("25: 65,535 bytes", |_, note| note.resize(65_535, 0)),
    ("25: any number over 64", |rng, note| note.resize(rng.range(65, 2_000), 9)),
];

/// A note that fits, of any bytes.
pub fn random_note(rng: &mut Rng) -> Vec<u8> {
    (0..rng.range(1, 64)).map(|_| rng.next() as u8).collect()
}

/// A note that 25 refuses.
pub fn unfit_note(rng: &mut Rng) -> Vec<u8> {
    let mut note = random_note(rng);
    UNFIT_NOTES[rng.below(UNFIT_NOTES.len())].1(rng, &mut note);
    note
}

/// Positions as the contents of their field.
pub fn contents_of(positions: &[i32]) -> Vec<u8> {
    positions.iter().flat_map(|&z| (z as i16).to_be_bytes()).collect()
}

/// A pack of two fields followed by a field of positions with these contents.
pub fn with_field(two: &[u8], contents: &[u8]) -> Vec<u8> {
    followed(two, 3, contents)
}

/// A pack without a note followed by one.
pub fn with_note(pack: &[u8], note: &[u8]) -> Vec<u8> {
    followed(pack, 4, note)
}

/// Some bytes followed by a field.
fn followed(bytes: &[u8], tag: u8, contents: &[u8]) -> Vec<u8> {
    [bytes, &[tag], &(contents.len() as u16).to_be_bytes(), contents].concat()
}

/// A pack of two fields followed by positions that 23 refuses.
pub fn with_unfit_field(rng: &mut Rng, two: &[u8]) -> Vec<u8> {
    let v = fields(two).map_or(1, |f| f.counts.v.clamp(1, 5_000));
    let mut positions = gen02::positions(rng, v as usize);
    UNFIT[rng.below(UNFIT.len())].1(rng, &mut positions);
    with_field(two, &contents_of(&positions))
}

/// A random pack of two fields, sound or not.
pub fn random_pack(rng: &mut Rng, max_t: usize) -> Vec<u8> {
    gen::pack_at(LEVEL, rng, max_t)
}

/// A random pack, sound or not, that may have positions and a note; now and then nothing but one of these is wrong.
pub fn random_whole_pack(rng: &mut Rng) -> Vec<u8> {
    match rng.chance(1, 5).then(|| packed(&gen02::model(rng), None)).flatten() {
        Some(two) if rng.chance(1, 3) => with_note(&two, &unfit_note(rng)),
        Some(two) => with_unfit_field(rng, &two),
        None => gen02::pack(LEVEL, rng),
    }
}

/// Whether the furnace's reader takes these operations, with so many places and loops, and stops at a union after them that breaks off.
fn takes(ops: &[Op], places: usize, loops: usize) -> bool {
    let counts = Counts { v: 4_096, t: 8_192, places: places as u32, loops: loops as u32 };
    let mut bits = BitWriter::default();
    ops.iter().for_each(|&o| bits.put_op(o));
    bits.put(Op::Union(0, 0).code(), 3);
    melt(&pack_bytes(counts, &bits.bytes)) == Err(15)
}

/// What operations that the furnace's reader takes come to; 17 refuses lower peaks.
pub fn free_counts(ops: &[Op]) -> Counts {
    let new = |o: &Op| if *o == Op::Start { 3 } else { u32::from(*o == Op::New) };
    let places = (3..=reader::PLACES).find(|&n| takes(ops, n, reader::LOOPS)).expect("operations that are taken");
    let loops = (1..=reader::LOOPS).find(|&n| takes(ops, reader::PLACES, n)).expect("operations that are taken");
    let t = ops.iter().filter(|&&o| o != Op::Border).count();
    Counts { v: ops.iter().map(new).sum(), t: t as u32, places: places as u32, loops: loops as u32 }
}

/// Random operations of a whole model that the table allows, whether or not the edge rule holds; half of them mark no edge.
fn free_operations(rng: &mut Rng) -> Vec<Op> {
    let marks = rng.chance(1, 2);
    let mut ops = vec![Op::Start];
    let take = |ops: &mut Vec<Op>, o: Op| {
        ops.push(o);
        let taken = takes(ops, reader::PLACES, reader::LOOPS);
        if !taken {
            ops.pop();
        }
        taken
    };
    for _ in 0..rng.range(1, 60) {
        match gen::random_op(rng) {
            Op::Border if !marks => false,
            o => take(&mut ops, o),
        };
    }
    // No loop is live where a start is taken.
    while !take(&mut ops.clone(), Op::Start) {
        assert!([Op::Close, Op::Forward, Op::Backward, Op::Border].iter().any(|&o| take(&mut ops, o)), "a loop takes a border");
    }
    ops
}

/// Counts with one of them changed now and then.
fn miscounted(rng: &mut Rng, mut c: Counts) -> Counts {
    match rng.below(24) {
        0 => c.v += 1,
        1 => c.v -= 1,
        2 => c.t += 1,
        3 => c.t -= 1,
        4 => c.places += 1,
        5 => c.places -= 1,
        6 => c.loops += 1,
        7 => c.loops -= 1,
        8 => c.places = [200, 201, 256 + c.places, 1_025][rng.below(4)],
        9 => c.loops = [12, 13, 100, 101][rng.below(4)],
        _ => {}
    }
    c
}

/// A random pack for the furnace's reader, sound or not, with operations that the edge rule may refuse, most often with positions.
pub fn random_free_pack(rng: &mut Rng) -> Vec<u8> {
    let ops = free_operations(rng);
    let counts = free_counts(&ops);
    let mut bytes = encode_ops(&ops);
    match rng.below(16) {
        0 => bytes.truncate(rng.below(bytes.len())),
        1 => bytes.push(0),
        2 => *bytes.last_mut().expect("a byte") |= 1,
        3 => {
            let i = rng.below(bytes.len());
            bytes[i] ^= 1 << rng.below(8);
        }
        _ => {}
    }
    let two = pack_bytes(miscounted(rng, counts), &bytes);
    let with_three = match rng.below(12) {
        0 => two,
        1 => with_unfit_field(rng, &two),
        _ => with_field(&two, &contents_of(&gen02::positions(rng, counts.v as usize))),
    };
    match rng.below(12) {
        0 => with_note(&with_three, &unfit_note(rng)),
        1..=3 => with_note(&with_three, &random_note(rng)),
        _ => with_three,
    }
}

/// A random list of building calls; the first is an accepted beginning.
pub fn random_calls(rng: &mut Rng, max_t: usize) -> Vec<String> {
    gen::calls_at(LEVEL, rng, max_t)
}

/// A random list of t triangles with the numbers below v, 3 or more, that passes 4; an edge may be in several triangles.
pub fn loose_list(rng: &mut Rng, v: usize, t: usize) -> Vec<u16> {
    let mut list = Vec::with_capacity(3 * t);
    while list.len() < 3 * t {
        let [p, q, r] = [0; 3].map(|_| rng.below(v) as u16);
        if p != q && q != r && r != p {
            list.extend([p, q, r]);
        }
    }
    list
}

/// Building calls in the second program's words, answered by the book.
#[derive(Default)]
pub struct Calls {
    pub book: Option<Book>,
}

impl Calls {
    pub fn line(&mut self, line: &str) -> String {
        // Remarks, and lines that are no call; a book that was never begun answers the others with 21.
        let told = proto::Calls::default().line(line);
        if line.starts_with('#') || told.starts_with("error") {
            return told;
        }
        let w: Vec<&str> = line.split_ascii_whitespace().collect();
        let n = |i: usize| w[i].parse::<u32>().unwrap_or(u32::MAX);
        let answer = match (w[0], &mut self.book) {
            ("begin", book) => begin(Counts { v: n(1), t: n(2), places: n(3), loops: n(4) }, n(5) as usize, n(6) as usize).map(|b| {
                *book = Some(b);
                String::new()
            }),
            (_, None) => return told,
            ("op", Some(book)) => book.op(operation(&w)).map(|t| t.map_or(String::new(), |[p, q, r]| format!(" {p} {q} {r}"))),
            (_, Some(book)) => book.finish().map(|f| format!(" {} {} {} {}", f.edges, f.rims, f.unions, f.euler)),
        };
        answer.map_or_else(|n| format!("refused {n}"), |told| format!("ok{told}"))
    }
}

/// The operation of a line `op NAME [NUMBERS]`.
pub fn operation(words: &[&str]) -> Op {
    let n = |i: usize| words[i].parse::<u32>().unwrap_or(u32::MAX);
    match words[1] {
        "new" => Op::New,
        "forward" => Op::Forward,
        "backward" => Op::Backward,
        "border" => Op::Border,
        "close" => Op::Close,
        "start" => Op::Start,
        "split" => Op::Split(n(2)),
        _ => Op::Union(n(2), n(3)),
    }
}
