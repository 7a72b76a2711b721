//! The words of a line, and how numbers are written in answers.

use compare::expected;
use cutborder::proto::unhex;
use cutborder::Place;
use std::fmt::{Display, Write};
use std::str::FromStr;

/// The longest buffer that a line may ask for.
const LONGEST_BUFFER: u64 = 1 << 24;
/// The triangle buffer's length where T is unknown.
const UNKNOWN: usize = 24_576;

pub type Text = Result<String, &'static str>;

/// The words after the call's name: plain ones, and key=value.
pub struct Args<'a>(pub &'a [&'a str]);

impl<'a> Args<'a> {
    pub fn get(&self, key: &str) -> Option<&'a str> {
        self.0.iter().find_map(|w| w.strip_prefix(key)?.strip_prefix('='))
    }

    pub fn number(&self, key: &str) -> Result<u64, &'static str> {
        self.get(key).and_then(number).ok_or("a number is missing")
    }

    /// A number of a beginning; one that 32 bits do not hold is as bad as the largest.
    pub fn count(&self, key: &str) -> Result<u32, &'static str> {
        Ok(self.number(key)?.min(u64::from(u32::MAX)) as u32)
    }

    /// A buffer's length, which need not be one that can be lent.
    fn asked(&self, key: &str, ample: usize) -> Result<u64, &'static str> {
        self.get(key).map_or(Ok(ample as u64), |s| number(s).ok_or("no length"))
    }

    pub fn length(&self, key: &str, ample: usize) -> Result<usize, &'static str> {
        let n = self.asked(key, ample)?;
        if n > LONGEST_BUFFER { Err("a length over 16777216") } else { Ok(n as usize) }
    }

    /// The length of a buffer that a beginning is lent: no answer tells one of these from a longer one.
    pub fn length_or_less(&self, key: &str, ample: usize) -> Result<usize, &'static str> {
        Ok(self.asked(key, ample)?.min(LONGEST_BUFFER) as usize)
    }

    /// Bytes, if they are given.
    fn bytes(&self, key: &str) -> Result<Option<Vec<u8>>, &'static str> {
        self.get(key).map(|s| unhex(s).ok_or("not hexadecimal")).transpose()
    }

    pub fn pack(&self) -> Result<Vec<u8>, &'static str> {
        self.bytes("pack")?.ok_or("no pack")
    }

    pub fn note(&self) -> Result<Option<Vec<u8>>, &'static str> {
        self.bytes("note")
    }

    /// A list, if it is given.
    fn list<T: FromStr>(&self, key: &str) -> Result<Option<Vec<T>>, &'static str> {
        match self.get(key) {
            None => Ok(None),
            Some("") => Ok(Some(Vec::new())),
            Some(s) => s.split(',').map(str::parse).collect::<Result<_, _>>().map(Some).map_err(|_| "no such list"),
        }
    }

    /// V and the list.
    pub fn model(&self) -> Result<(u64, Vec<u16>), &'static str> {
        Ok((self.number("v")?, self.list("list")?.ok_or("no list")?))
    }

    pub fn positions(&self) -> Result<Option<Vec<i32>>, &'static str> {
        self.list("positions")
    }
}

pub fn number(s: &str) -> Option<u64> {
    s.parse().ok()
}

/// The triangle buffer that is ample for a pack.
pub fn ample(pack: &[u8]) -> usize {
    expected::fields(pack).map_or(UNKNOWN, |f| 3 * f.counts.t as usize)
}

pub fn joined<T: Display>(items: &[T]) -> String {
    items.iter().map(T::to_string).collect::<Vec<_>>().join(",")
}

/// FNV-1a over numbers as comma-separated decimals.
pub fn hash<T: Display>(numbers: impl IntoIterator<Item = T>) -> String {
    let (mut h, mut text) = (0xcbf2_9ce4_8422_2325u64, String::new());
    for n in numbers {
        let comma = if text.is_empty() { "" } else { "," };
        text.clear();
        write!(text, "{comma}{n}").expect("text");
        h = text.bytes().fold(h, |h, b| (h ^ u64::from(b)).wrapping_mul(0x100_0000_01b3));
    }
    format!("{h:016x}")
}

pub fn hash_places(places: &[Place]) -> String {
    hash(places.iter().flat_map(|p| [p.vertex, p.before, p.after, u16::from(p.open)]))
}
