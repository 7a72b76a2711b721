//! The lines' answers compared with those of the second program.

use crate::service::Calls;
use crate::words::Args;
use compare::expected::{self, with_note, LEVEL};
use cutborder::calls02::Calls02;
use cutborder::fields::Fields;
use cutborder::proto::hex;
use cutborder::rng::Rng;
use cutborder::{gen, gen02};
use std::collections::BTreeMap;

/// Lines that the generator seldom or never writes: the limits of words, and calls that are none.
const LINES: &str = include_str!("../../../lines.txt");

/// Lines that the second program answers otherwise or not at all, and our answers.
const OURS: [(&str, &str); 10] = [
    ("level 15", "error the service stands at level 16"),
    ("level 17", "not yet"),
    ("table", "not yet"),
    ("seat 1 pack=", "not yet"),
    ("as 1 unpack pack=", "not yet"),
    ("pack v=3 list=0,1,2 codes=", "not yet"),
    ("pack v=3 list=0,1,2 note=00 codes=", "not yet"),
    ("pack v=3 list=0,1,2 order=99999999999", "error a length over 16777216"),
    ("unpack pack= places=18446744073709551615", "error a length over 16777216"),
    ("begin v=3 t=1 places=3 loops=1 triangles=18446744073709551615", "ok"),
];

/// What each call answers at least once among the generated lines, 0 for acceptance.
const MET: [(&str, &[u8]); 9] = [
    ("begin", &[0, 13, 14]),
    ("bench", &[0, 12, 13, 14, 15, 16, 17, 18, 19, 20, 23, 25]),
    ("check", &[0, 1, 2, 3, 4, 5, 6, 7]),
    ("finish", &[0, 15, 19, 20, 21]),
    ("op", &[0, 16, 17, 18, 21]),
    ("pack", &[0, 1, 2, 3, 4, 5, 6, 7, 8, 9, 10, 11, 22, 23, 25]),
    ("reader", &[0, 12, 13, 15, 16, 17, 19, 23, 24, 25, 26]),
    ("unpack", &[0, 12, 13, 14, 15, 16, 17, 18, 19, 20, 23, 25]),
    ("volume", &[0, 12, 13, 14, 15, 16, 17, 18, 19, 20, 23, 24, 25]),
];

/// Both programs, and what was answered: each call's answers, and how often.
struct Both {
    ours: Calls,
    second: Calls02,
    tally: BTreeMap<String, BTreeMap<u8, usize>>,
    lines: usize,
}

impl Both {
    fn new() -> Both {
        Both { ours: Calls::default(), second: Calls02::at(LEVEL), tally: BTreeMap::new(), lines: 0 }
    }

    /// A line answered by both.
    fn line(&mut self, line: &str) -> Result<(), String> {
        let (ours, second) = (self.ours.line(line), self.second.line(line));
        if ours != second {
            return Err(format!("line {line}\nanswer {ours}\nsecond program {second}"));
        }
        let call = line.split(' ').next().unwrap_or("").to_string();
        let head: Vec<&str> = ours.split(' ').collect();
        match head[..] {
            ["ok", ..] => *self.tally.entry(call).or_default().entry(0).or_default() += 1,
            ["refused", n, ..] => *self.tally.entry(call).or_default().entry(n.parse().expect("a refusal")).or_default() += 1,
            _ => (),
        }
        self.lines += 1;
        Ok(())
    }

    /// Each call's answers, printed; those that were never met.
    fn unmet(&self) -> Vec<String> {
        let mut out = Vec::new();
        for (call, answers) in MET {
            let tally = self.tally.get(call).cloned().unwrap_or_default();
            println!("{call}: answers {tally:?}");
            out.extend(answers.iter().filter(|n| !tally.contains_key(n)).map(|n| format!("{call} {n}")));
        }
        out
    }
}

/// What is sent for a generated line: a packing, and sometimes again with another order buffer; a pack by all calls that read one, again
/// with other positions and another note, and sometimes its building calls.
fn sent(rng: &mut Rng, line: &str) -> Vec<String> {
    let words: Vec<&str> = line.split(' ').collect();
    let args = Args(&words[1..]);
    match words[0] {
        "pack" => {
            let t = args.model().map_or(0, |(_, list)| list.len() / 3);
            let positions = args.positions().ok().flatten().map_or(0, |zs| zs.len());
            let note = args.note().ok().flatten().map_or(0, |note| note.len());
            // Mostly less than 65,536 bytes, which take long, and still ample.
            let short = args.get("room").is_none() && !rng.chance(1, 16);
            let room = if short { format!(" room={}", 4 * t + 2 * positions + note + 64) } else { String::new() };
            let mut out = vec![line.to_owned() + &room];
            if rng.chance(1, 2) {
                out.push(other_order(rng, &words, t) + &room);
            }
            out
        }
        "unpack" | "volume" | "bench" => {
            let pack = args.pack().unwrap_or_default();
            let rest = words[2..].join(" ");
            let call = |name: &str, p: &[u8]| format!("{name} pack={} {rest}", hex(p));
            let mut out = ["unpack", "volume", "bench"].map(|name| call(name, &pack)).to_vec();
            out.push(format!("reader pack={}", hex(&pack)));
            out.extend(other_positions(rng, &pack).iter().chain(&other_note(rng, &pack)).map(|p| call(words[0], p)));
            if rng.chance(1, 6) {
                out.extend(building(&pack));
            }
            out
        }
        _ => vec![line.into()],
    }
}

/// A pack with positions again without them, and now and then with such as 23 refuses.
fn other_positions(rng: &mut Rng, pack: &[u8]) -> Vec<Vec<u8>> {
    let Some(f) = expected::fields(pack).ok().filter(|f| f.positions.is_some()) else { return Vec::new() };
    let mut out = vec![Fields { positions: None, ..f }.bytes()];
    if rng.chance(1, 4) {
        let two = Fields { positions: None, note: None, ..f }.bytes();
        out.push(expected::with_unfit_field(rng, &two));
    }
    out
}

/// Some packs again with another note: none, one that fits, or one that 25 refuses.
fn other_note(rng: &mut Rng, pack: &[u8]) -> Option<Vec<u8>> {
    let f = expected::fields(pack).ok().filter(|f| rng.chance(if f.note.is_some() { 3 } else { 1 }, 6))?;
    let without = Fields { note: None, ..f }.bytes();
    Some(match rng.below(3) {
        0 => without,
        1 => with_note(&without, &expected::random_note(rng)),
        _ => with_note(&without, &expected::unfit_note(rng)),
    })
}

/// The building calls of a pack.
fn building(pack: &[u8]) -> Vec<String> {
    let Ok(Fields { counts: c, ops, .. }) = expected::fields(pack) else { return Vec::new() };
    let begin = format!("begin v={} t={} places={} loops={}", c.v, c.t, c.places, c.loops);
    let ops = gen::read_ops(ops).into_iter().map(gen::op_words);
    [begin].into_iter().chain(ops).chain(["finish".into()]).collect()
}

/// A packing with another order buffer, of any length about T.
fn other_order(rng: &mut Rng, words: &[&str], t: usize) -> String {
    let words: Vec<&str> = words.iter().copied().filter(|w| !w.starts_with("order=")).collect();
    let n = [0, t.saturating_sub(1), t, t + 1, rng.below(t + 1), t + rng.below(9_000)][rng.below(6)];
    format!("{} order={n}", words.join(" "))
}

/// The lines that are made from those of the second program's generator, a new beginning among them now and then.
fn lines(seed: u64, count: usize) -> Vec<String> {
    let mut rng = Rng::new(seed);
    let level = || [format!("level {}", LEVEL.0), "op start".into(), "finish".into()];
    let made = |(i, line): (usize, &String)| {
        let mut out = if i % 1_000 == 0 { level().to_vec() } else { Vec::new() };
        out.extend(sent(&mut rng, line));
        out
    };
    gen02::lines(LEVEL, seed, count).iter().enumerate().flat_map(made).collect()
}

/// Prints lines for both programs.
pub fn print_lines(seed: u64, count: usize) {
    lines(seed, count).iter().for_each(|l| println!("{l}"));
}

/// All lines of a comparison, of each seed and ours; the last line printed says how many.
pub fn compare(count: usize, seeds: &[u64]) -> Result<(), String> {
    let mut both = Both::new();
    seeds.iter().flat_map(|&seed| lines(seed, count)).try_for_each(|l| both.line(&l))?;
    let unmet = both.unmet();
    LINES.lines().try_for_each(|l| both.line(l))?;
    for (line, answer) in OURS {
        let told = both.ours.line(line);
        if told != answer {
            return Err(format!("line {line}\nanswer {told}\nexpected {answer}"));
        }
    }
    if !unmet.is_empty() {
        return Err(format!("never met: {}", unmet.join(", ")));
    }
    println!("calls: {} lines alike", both.lines + OURS.len());
    Ok(())
}
