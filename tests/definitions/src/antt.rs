//! Values in the prover's notation.

use crate::expected::LIMITS;
use crate::lines::record;
use crate::second::{Building, Melting, PackBuffers, Packing, UnpackBuffers, Unpacking, Whole};
use cutborder::across::across;
use cutborder::book::Book;
use cutborder::ops::{pack_bytes, Counts};
use cutborder::{Answer, Place, Refusal};
use std::fmt::Write;

/// A list, runs of equal values as `replicate`.
fn list<T: PartialEq>(xs: &[T], show: impl Fn(&T) -> String) -> String {
    let mut parts: Vec<String> = Vec::new();
    let mut single: Vec<String> = Vec::new();
    let mut i = 0;
    while i < xs.len() {
        let n = xs[i..].iter().take_while(|x| **x == xs[i]).count();
        if n >= 8 {
            flush(&mut single, &mut parts);
            parts.push(format!("replicate {n} {}", argument(show(&xs[i]))));
            i += n;
        } else {
            single.push(show(&xs[i]));
            i += 1;
        }
    }
    flush(&mut single, &mut parts);
    match parts.as_slice() {
        [] => "[]".into(),
        [one] if one.starts_with('(') => one.clone(),
        _ => format!("({})", parts.join(" ++ ")),
    }
}

/// A value as an argument.
fn argument(value: String) -> String {
    if value.contains(' ') { format!("({value})") } else { value }
}

fn flush(single: &mut Vec<String>, parts: &mut Vec<String>) {
    if !single.is_empty() {
        parts.push(format!("({} ∷ [])", single.join(" ∷ ")));
        single.clear();
    }
}

fn numbers<T: Copy + PartialEq + Into<u64>>(xs: &[T]) -> String {
    list(xs, |x| { let n: u64 = (*x).into(); n.to_string() })
}

fn places(ps: &[Place]) -> String {
    list(ps, |p| format!("place {} {} {} {}", p.vertex, p.before, p.after, p.open))
}

fn pack_buffers(r: &PackBuffers) -> String {
    format!("pack_lent {} {} {} {}", numbers(&r.numbering), places(&r.places), numbers(&r.pack), numbers(&r.order))
}

fn unpack_buffers(r: &UnpackBuffers) -> String {
    format!("unpack_lent {} {}", numbers(&r.triangles), places(&r.places))
}

fn signed(n: i64) -> String {
    if n >= 0 { format!("pos {n}") } else { format!("negsuc {}", -n - 1) }
}

fn integer(n: i64) -> String {
    argument(signed(n))
}

/// A packing with nothing beside the list.
pub fn packing(x: &Packing) -> String {
    let [limits, vertices, list, lent, answer, left] = packing_fields(x);
    record(&[limits, vertices, list, lent, answer, left])
}

/// A packing with positions and a note, if they are given.
pub fn whole_packing(x: &Packing) -> String {
    let [limits, vertices, list, lent, answer, left] = packing_fields(x);
    let given = |value: Option<String>| value.map_or("not_given".into(), |shown| format!("given {shown}"));
    let positions = given(x.extras.positions.as_ref().map(|p| self::list(p, |&n| signed(n.into()))));
    let note = given(x.extras.note.as_ref().map(|n| numbers(n)));
    record(&[limits, vertices, list, ("positions", positions), ("note", note), lent, answer, left])
}

fn packing_fields(x: &Packing) -> [(&'static str, String); 6] {
    let answer = match x.answer {
        Ok(n) => format!("packed {n}"),
        Err(n) => format!("refusal {n}"),
    };
    let limits = match x.limits {
        LIMITS => "most".to_owned(),
        (places, loops) => format!("record {{ places = {places}; loops = {loops} }}"),
    };
    [
        ("limits", limits),
        ("vertices", x.v.to_string()),
        ("list", numbers(&x.list)),
        ("lent", pack_buffers(&x.lent)),
        ("answer", answer),
        ("left", pack_buffers(&x.left)),
    ]
}

/// Counts and operations, and the pack that has them.
pub fn fields(c: Counts, ops: &[u8]) -> String {
    let stated = format!("counts {} {} {} {}", c.v, c.t, c.places, c.loops);
    record(&[("stated", stated), ("ops", numbers(ops)), ("bytes", numbers(&pack_bytes(c, ops)))])
}

/// A look across an edge: the triangle's number, the corner and the vertex there, or nothing.
pub fn look(list: &[u16], p: u16, q: u16) -> String {
    let found: Vec<u32> = across(list, p, q).map_or(vec![], |x| vec![x.triangle as u32, x.corner as u32, x.c.into()]);
    record(&[("list", numbers(list)), ("from", p.to_string()), ("to", q.to_string()), ("told", numbers(&found))])
}

fn model(a: &Answer) -> String {
    format!("model_of {} {} (totals_of {} {} {} {})", a.v, a.t, a.edges, a.rims, a.unions, integer(a.euler.into()))
}

fn model_or_refusal(answer: Result<&Answer, Refusal>) -> String {
    answer.map_or_else(|n| format!("refusal {n}"), model)
}

pub fn unpacking(x: &Unpacking) -> String {
    let answer = model_or_refusal(x.answer.as_ref().map_err(|n| *n));
    record(&[("bytes", numbers(&x.bytes)), ("lent", unpack_buffers(&x.lent)), ("answer", answer), ("left", unpack_buffers(&x.left))])
}

/// A pack that may have positions and a note, unpacked, measured and read by the bench reader.
pub fn whole(x: &Whole) -> String {
    let unpacked = model_or_refusal(x.unpacked.as_ref().map_err(|n| *n));
    let measured = model_or_refusal(x.measured.as_ref().map(|m| &m.0).map_err(|n| *n));
    let six = x.measured.as_ref().map_or("not_given".into(), |m| format!("(given {})", integer(m.1)));
    record(&[
        ("bytes", numbers(&x.bytes)),
        ("lent", unpack_buffers(&x.lent)),
        ("unpacking", format!("unpack_told ({unpacked}) ({})", unpack_buffers(&x.left))),
        ("measuring", format!("volume_told ({measured}) {six} ({})", unpack_buffers(&x.left_measured))),
        ("note", numbers(&x.note)),
        ("start", x.start.to_string()),
    ])
}

/// A pack read by the furnace's own reader.
pub fn melting(x: &Melting) -> String {
    let told = x.told.map_or_else(|n| format!("Refused {n}"), |six| format!("Six {}", integer(six)));
    record(&[("bytes", numbers(&x.bytes)), ("told", told)])
}

fn call(line: &str) -> String {
    let w: Vec<&str> = line.split(' ').collect();
    match w.as_slice() {
        ["begin", v, t, p, l, ..] => format!("begin (counts {v} {t} {p} {l})"),
        ["finish"] => "finish".into(),
        ["op", name, indices @ ..] => {
            let name = name[..1].to_uppercase() + &name[1..];
            if indices.is_empty() { format!("operate {name}") } else { format!("operate ({name} {})", indices.join(" ")) }
        }
        _ => panic!("no call: {line}"),
    }
}

fn answer(call: &str, told: &str) -> String {
    let w: Vec<&str> = told.split(' ').collect();
    match w.as_slice() {
        ["refused", n] => format!("refusal {n}"),
        ["ok"] if call.starts_with("begin") => "accepted".into(),
        ["ok"] => "no_triangle".into(),
        ["ok", p, q, r] => format!("triangle (tri {p} {q} {r})"),
        ["ok", e, r, u, x] => format!("numbers (totals_of {e} {r} {u} {})", integer(x.parse().unwrap())),
        _ => panic!("no answer: {told}"),
    }
}

pub fn building(x: &Building) -> String {
    let mut calls = String::new();
    let mut told = String::new();
    for (c, t) in x.calls.iter().zip(&x.told) {
        let _ = write!(calls, "{} ∷ ", call(c));
        let _ = write!(told, "{} ∷ ", answer(c, t));
    }
    record(&[
        ("lengths", format!("lengths {} {}", x.lengths.0, x.lengths.1)),
        ("calls", calls + "[]"),
        ("told", told + "[]"),
        ("machine", numbers(&machine(&x.book))),
        ("borders", numbers(&borders(&x.book))),
    ])
}

/// What the book holds, as numbers: the counts, the triangles as built, then each loop's length and places.
fn machine(b: &Book) -> Vec<u32> {
    let mut out = vec![b.used, b.edges(), b.peak_places, b.peak_loops, b.starts, b.unions, b.rims];
    out.extend(b.triangles.iter().flatten().map(|&n| u32::from(n)));
    for ring in &b.live {
        out.push(ring.len() as u32);
        out.extend(ring.iter().flat_map(|s| [u32::from(s.vertex), u32::from(s.open)]));
    }
    out
}

/// The edges declared border, the latest first.
fn borders(b: &Book) -> Vec<u16> {
    b.borders.iter().rev().flat_map(|&(x, y)| [x, y]).collect()
}
