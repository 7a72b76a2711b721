//! The service's answers to lines of the second program's protocol, through the delivered calls.

use crate::words::{ample, hash, hash_places, joined, number, Args, Text};
use compare::expected::LEVEL;
use compare::{bench, check, melt, narrow, pack_whole, unpack, volume, Buffers, Building, STATE};
use cutborder::ops::{Counts, Op};
use cutborder::proto::hex;
use cutborder::{Answer, Place, Refusal};

/// What a buffer's numbers hold before a call, its bytes, and its place records.
const NUMBER: u16 = 43_690;
const BYTE: u8 = 0xaa;
const PLACE: Place = Place { vertex: NUMBER, before: NUMBER, after: NUMBER, open: true };

/// Calls and arguments of requests that have not landed.
const LATER: [&str; 10] = ["totals", "scan", "table", "fans", "sprues", "seat", "turn", "fetch", "window", "as"];
const LATER_GIVEN: &str = "codes";

/// The builder, with the buffers of the last accepted beginning.
pub struct Calls {
    builder: Building,
}

impl Default for Calls {
    fn default() -> Self {
        Calls { builder: Building { state: [0; STATE], triangles: Vec::new(), places: Vec::new() } }
    }
}

impl Calls {
    pub fn line(&mut self, line: &str) -> String {
        if line.starts_with('#') {
            return line.into();
        }
        let words: Vec<&str> = line.split(' ').filter(|w| !w.is_empty()).collect();
        self.words(&words).unwrap_or_else(|e| format!("error {e}"))
    }

    fn words(&mut self, words: &[&str]) -> Text {
        let (name, rest) = words.split_first().ok_or("no call")?;
        let args = Args(rest);
        match (*name, rest) {
            ("level", [n]) => self.level(n),
            ("pack", _) if args.get(LATER_GIVEN).is_some() => Ok("not yet".into()),
            ("pack", _) => packing(&args),
            ("check", _) => {
                let (v, list) = args.model()?;
                Ok(answer(check(v as usize, &list).map(|()| String::new())))
            }
            ("unpack", _) => in_buffers(&args, |b, triangles, places| unpacked(unpack(b, triangles, places), triangles)),
            ("volume", _) => in_buffers(&args, |b, triangles, places| {
                answer(volume(b, triangles, places).map(|(a, six)| format!("{} six={six}", six_numbers(&a))))
            }),
            ("bench", _) => in_buffers(&args, |b, triangles, places| {
                let (told, note) = bench(b, triangles, places);
                format!("{} note={}", unpacked(told, triangles), hex(note))
            }),
            ("reader", _) => Ok(answer(melt(&args.pack()?, &mut [BYTE; 1_024]).map(|six| format!("six={six}")))),
            ("begin", _) => self.begin(&args),
            ("op", _) => {
                let built = self.builder.operate(operation(rest).ok_or("no such operation")?);
                Ok(answer(built.map(|t| t.map_or("none".into(), |[a, b, c]| format!("{a} {b} {c}")))))
            }
            ("finish", _) => Ok(answer(self.builder.finish().map(|f| format!("{} {} {} {}", f.edges, f.rims, f.unions, f.euler)))),
            (later, _) if LATER.contains(&later) => Ok("not yet".into()),
            _ => Err("no such call"),
        }
    }

    /// Only the level that has landed is there.
    fn level(&mut self, n: &str) -> Text {
        let n = number(n).filter(|n| (10..=24).contains(n)).ok_or("no such level")?;
        match n.cmp(&u64::from(LEVEL.0)) {
            std::cmp::Ordering::Less => Ok(format!("error the service stands at level {}", LEVEL.0)),
            std::cmp::Ordering::Greater => Ok("not yet".into()),
            std::cmp::Ordering::Equal => {
                *self = Calls::default();
                Ok(format!("level {n}"))
            }
        }
    }

    /// A refused beginning leaves the builder with its model and its buffers.
    fn begin(&mut self, args: &Args) -> Text {
        let c = Counts { v: args.count("v")?, t: args.count("t")?, places: args.count("places")?, loops: args.count("loops")? };
        let triangles = vec![NUMBER; args.length_or_less("triangles", 3 * c.t as usize)?];
        let places = vec![PLACE; args.length_or_less("records", 1_024)?];
        let mut begun = Building { state: self.builder.state, triangles, places };
        let told = begun.begin(c);
        if told.is_ok() {
            self.builder = begun;
        }
        Ok(answer(told.map(|()| String::new())))
    }
}

fn answer(told: Result<String, Refusal>) -> String {
    match told {
        Ok(s) if s.is_empty() => "ok".into(),
        Ok(s) => format!("ok {s}"),
        Err(n) => format!("refused {n}"),
    }
}

fn packing(args: &Args) -> Text {
    let (v, list) = args.model()?;
    let (ample, t) = (v.min(1 << 20) as usize, list.len() / 3);
    let mut b = Buffers {
        numbering: vec![NUMBER; args.length("numbering", ample)?],
        places: vec![PLACE; args.length("places", 1_024)?],
        pack: vec![BYTE; args.length("room", 65_536)?],
        order: vec![NUMBER; args.length("order", t)?],
    };
    let (positions, note) = (args.positions()?.map(|zs| narrow(&zs)), args.note()?);
    let head = answer(pack_whole(v as usize, &list, positions.as_deref(), note.as_deref(), b.lend()).map(|n| {
        let (numbering, order) = (joined(&b.numbering[..v as usize]), joined(&b.order[..t]));
        format!("len={n} pack={} numbering={numbering} order={order}", hex(&b.pack[..n]))
    }));
    let (numbering, places, room, order) = (hash(&b.numbering), hash_places(&b.places), hash(&b.pack), hash(&b.order));
    Ok(format!("{head} | rooms numbering={numbering} places={places} room={room} order={order}"))
}

fn six_numbers(a: &Answer) -> String {
    format!("{} {} {} {} {} {}", a.v, a.t, a.edges, a.rims, a.unions, a.euler)
}

/// What unpacking answers.
fn unpacked(told: Result<Answer, Refusal>, triangles: &[u16]) -> String {
    answer(told.map(|a| format!("{} triangles={}", six_numbers(&a), joined(&triangles[..3 * a.t as usize]))))
}

/// A call that reads a pack, in the buffers that the line asks for.
fn in_buffers(args: &Args, call: impl Fn(&[u8], &mut [u16], &mut [Place]) -> String) -> Text {
    let bytes = args.pack()?;
    let mut triangles = vec![NUMBER; args.length("triangles", ample(&bytes))?];
    let mut places = vec![PLACE; args.length("places", 1_024)?];
    let head = call(&bytes, &mut triangles, &mut places);
    Ok(format!("{head} | rooms triangles={} places={}", hash(&triangles), hash_places(&places)))
}

/// The operation of a line. An index that 32 bits do not hold is as bad as any that is too large.
fn operation(words: &[&str]) -> Option<Op> {
    let index = |s: &str| number(s).map(|n| n.min(u64::from(u32::MAX)) as u32);
    Some(match words {
        ["new"] => Op::New,
        ["forward"] => Op::Forward,
        ["backward"] => Op::Backward,
        ["border"] => Op::Border,
        ["close"] => Op::Close,
        ["start"] => Op::Start,
        ["split", i] => Op::Split(index(i)?),
        ["union", p, j] => Op::Union(index(p)?, index(j)?),
        _ => return None,
    })
}
