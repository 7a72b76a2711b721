//! What happens in shortened loops, and other things by their names, counted over the compared runs.

use cutborder::book::Book;
use cutborder::ops::Op;
use std::collections::BTreeMap;

pub type Kinds = BTreeMap<&'static str, usize>;

/// What can happen in shortened loops.
pub const SHORTENED: [&str; 11] = [
    "split 1",
    "split k - 2",
    "forward with three places",
    "backward with three places",
    "new with two places",
    "union from two places",
    "border, none leaves",
    "border, e leaves",
    "border, f leaves",
    "border, both leave",
    "border that ends a rim",
];

/// What an operation is that the book is about to accept.
fn kind(book: &Book, op: Op) -> Option<&'static str> {
    let ring = book.live.first()?;
    let k = ring.len();
    Some(match op {
        Op::Split(1) => "split 1",
        Op::Split(i) if i as usize + 2 == k => "split k - 2",
        Op::Forward if k == 3 => "forward with three places",
        Op::Backward if k == 3 => "backward with three places",
        Op::New if k == 2 => "new with two places",
        Op::Union(..) if k == 2 => "union from two places",
        Op::Border if k == 2 => "border that ends a rim",
        Op::Border => match (ring[k - 1].open, ring[1].open) {
            (true, true) => "border, none leaves",
            (false, true) => "border, e leaves",
            (true, false) => "border, f leaves",
            (false, false) => "border, both leave",
        },
        _ => return None,
    })
}

/// Counts an operation before it is tried; a refused one is none.
pub fn note(kinds: &mut Kinds, book: &Book, op: Op) {
    if let Some(kind) = kind(book, op).filter(|_| book.test(op) == 0) {
        count(kinds, kind);
    }
}

pub fn count(kinds: &mut Kinds, kind: &'static str) {
    *kinds.entry(kind).or_default() += 1;
}

/// Counts operations from the beginning of a book on, as far as they are accepted.
pub fn note_all(kinds: &mut Kinds, mut book: Book, ops: &[Op]) {
    for &op in ops {
        note(kinds, &book, op);
        if book.op(op).is_err() || book.is_complete() {
            return;
        }
    }
}

/// Each of these was met.
pub fn met(kinds: &Kinds, all: &[&str]) {
    for &kind in all {
        assert!(kinds.contains_key(kind), "never met: {kind}: {kinds:?}");
    }
}
