//! The furnace's own reader compared with the second program's, and with the service's volume call: every pack that the other calls are
//! compared on, and those that tell it from them.

mod models;
mod strings;
mod table;
mod ways;

pub use models::models;
pub use strings::{changed, free, two_bytes};
pub use table::{allowed, broken_off};
pub use ways::{faults_together, stated};

use crate::{count, met, used_places, Tally};
use compare::expected;
use compare::kinds::{self, Kinds};
use compare::{melt, volume, Memory};
use cutborder::reader::{LOOPS, PLACES};
use cutborder::rng::Rng;
use cutborder::{Place, Refusal};
use std::cell::RefCell;

/// What the reader answers: a volume, or one of its refusals. 14, 18 and 20 are none of them.
const ANSWERS: [u8; 11] = [0, 12, 13, 15, 16, 17, 19, 23, 24, 25, 26];

/// What it answers where the service refuses a pack with 18 or 20. A vertex with two fans is at a rim, so that there is no volume past 20.
const PAST: [(&str, Refusal, u8); 11] = [
    ("past 18: a volume", 18, 0),
    ("past 18: 15", 18, 15),
    ("past 18: 16", 18, 16),
    ("past 18: 17", 18, 17),
    ("past 18: 19", 18, 19),
    ("past 18: 23", 18, 23),
    ("past 18: 25", 18, 25),
    ("past 18: 24", 18, 24),
    ("past 20: 23", 20, 23),
    ("past 20: 25", 20, 25),
    ("past 20: 24", 20, 24),
];

/// Bytes on each side of the reader's memory, which stay as they are.
const AROUND: [u8; 64] = [0x5a; 64];

#[repr(C)]
struct Lent {
    before: [u8; 64],
    memory: Memory,
    after: [u8; 64],
}

/// All that is lent for reading, to one call after another, and what was answered.
struct Furnace {
    /// Where the packs lie: each over what is left of those before it.
    port: Vec<u8>,
    lent: Lent,
    /// The service's buffers, ample for every pack that passes 13.
    triangles: Vec<u16>,
    places: Vec<Place>,
    rng: Rng,
    tally: Tally,
    past: Kinds,
}

impl Furnace {
    fn new() -> Furnace {
        Furnace {
            port: Vec::new(),
            lent: Lent { before: AROUND, memory: [0xaa; 1_024], after: AROUND },
            triangles: vec![7; 24_576],
            places: used_places(1_024),
            rng: Rng::new(16),
            tally: Tally::new(),
            past: Kinds::new(),
        }
    }

    /// Fills the memory with anything: numbers of places, and what could not stand in it.
    fn fill(&mut self) {
        let (rng, memory) = (&mut self.rng, &mut self.lent.memory);
        match rng.below(8) {
            0..=2 => memory.fill_with(|| rng.next() as u8),
            3 => memory.fill_with(|| rng.below(PLACES) as u8),
            n => memory.fill([0, 1, 199, 255][n - 4]),
        }
    }

    /// One call, for the bytes that lie in the port.
    fn call(&mut self, b: &[u8]) -> Result<i64, Refusal> {
        let told = melt(&self.port[..b.len()], &mut self.lent.memory);
        assert!(self.port[..b.len()] == *b, "the reader changed pack {b:02x?}");
        assert!(self.lent.before == AROUND && self.lent.after == AROUND, "the reader wrote beside its memory, pack {b:02x?}");
        told
    }

    /// A pack read in the memory as the last call left it, and in one filled with anything: both times the second program's answer.
    fn read(&mut self, b: &[u8]) -> Result<i64, Refusal> {
        self.port.resize(self.port.len().max(b.len() + 64), 0xff);
        self.port[..b.len()].copy_from_slice(b);
        let expected = expected::melt(b);
        assert_eq!(self.call(b), expected, "the furnace's reader, pack {b:02x?}");
        self.fill();
        assert_eq!(self.call(b), expected, "the furnace's reader in another memory, pack {b:02x?}");
        self.as_measured(b, expected);
        count(&mut self.tally, &expected);
        expected
    }

    /// The reader answers what the service's volume call does, but for 26, and for 18 and 20, which it does not test.
    fn as_measured(&mut self, b: &[u8], told: Result<i64, Refusal>) {
        match volume(b, &mut self.triangles, &mut self.places).map(|(_, six)| six) {
            Err(n @ (12 | 13)) => assert_eq!(told, Err(n), "pack {b:02x?}"),
            _ if is_over(b) => assert_eq!(told, Err(26), "pack {b:02x?}"),
            Err(n @ (18 | 20)) => {
                let answer = told.err().unwrap_or(0);
                let way = PAST.iter().find(|(_, of, by)| (*of, *by) == (n, answer));
                kinds::count(&mut self.past, way.unwrap_or_else(|| panic!("{told:?} past {n}, pack {b:02x?}")).0);
            }
            measured => assert_eq!(told, measured, "the service's volume, pack {b:02x?}"),
        }
    }
}

thread_local! {
    static FURNACE: RefCell<Furnace> = RefCell::new(Furnace::new());
}

/// What the furnace's reader answers, compared.
pub fn melted(b: &[u8]) -> Result<i64, Refusal> {
    FURNACE.with_borrow_mut(|f| f.read(b))
}

/// Whether a pack states more than the reader keeps.
pub fn is_over(b: &[u8]) -> bool {
    expected::fields(b).is_ok_and(|f| f.counts.places as usize > PLACES || f.counts.loops as usize > LOOPS)
}

/// What the reader answers where a field that 23 or 25 refuses takes the place of a sound one or of none: that, if it came so far before.
pub fn comes_to(unfit: Refusal, without: Result<i64, Refusal>) -> Refusal {
    match without {
        Ok(_) | Err(24) => unfit,
        Err(n) => n,
    }
}

/// All packs that were read: every answer was met, and each outcome past 18 and 20.
pub fn told() {
    FURNACE.with_borrow(|f| {
        let n: usize = f.tally.values().sum();
        println!("the furnace's reader: {n} packs alike, answers {:?}", f.tally);
        println!("    {:?}", f.past);
        met(&f.tally, &ANSWERS);
        assert!(f.tally.keys().all(|n| ANSWERS.contains(n)), "no answer of the reader");
        kinds::met(&f.past, &PAST.map(|(way, ..)| way));
    });
}
