//! The table of the rules: the second program's models, packs and calls, and rows that pin the rules one by one.

use crate::antt;
use crate::expected::{self, LIMITS};
use crate::furnace;
use crate::lines;
use crate::notes;
use crate::positions;
use crate::prelude::prelude;
use crate::second::{Building, PackBuffers, Packing, UnpackBuffers, Unpacking};
use cutborder::gen::op_words;
use cutborder::ops::Counts;
use cutborder::proto::unhex;
use cutborder::{plain, Place};

const MODELS: &str = include_str!("../../../reference/vectors/models.txt");
const PACKS: &str = include_str!("../../../reference/vectors/packs.txt");
const CALLS: &str = include_str!("../../../reference/vectors/calls.txt");
const MORE_MODELS: &str = include_str!("../models.txt");
const MORE_CALLS: &str = include_str!("../calls.txt");

/// What the second program's vectors show in shortened loops, where that is not what their remarks say.
const NOW: [(&str, &str); 8] = [
    (
        "smallest forward; c is reached from the edge that enters its place only",
        "forward at three places; c is reached from the edge that enters its place only",
    ),
    (
        "smallest backward; c is reached from the edge that leaves its place only",
        "backward at three places; c is reached from the edge that leaves its place only",
    ),
    (
        "smallest split; equal halves, next to a marked edge",
        "split k - 2 across a link; the second part has fewer places, in full loops as many",
    ),
    ("split, the second part is smaller", "split k - 2, the second part is smaller"),
    ("union to c that has a place in the current loop too", "union from a loop of two places"),
    ("split to c that has an earlier place after f", "union from a loop of two places, then a split past links"),
    ("20: the shortest", "operations and peaks of full loops, in which these were 20"),
    ("forward across a marked edge", "a loop of two places takes neither forward, backward nor close"),
];

/// A remark of a vector file, as it is now.
fn now(remark: &str) -> String {
    NOW.iter().find(|r| r.0 == remark).map_or(remark, |r| r.1).to_owned()
}

/// The lines of a vector file, each with the remark above it.
fn lines(text: &str) -> Vec<(String, String)> {
    let mut name = String::new();
    let mut out = Vec::new();
    for line in text.lines() {
        match line.strip_prefix("# ") {
            Some(remark) => name = now(remark),
            None => out.push((name.clone(), line.to_owned())),
        }
    }
    out
}

/// The models of the second program's vectors, then our own.
fn models() -> Vec<(String, String)> {
    [MODELS, MORE_MODELS].iter().flat_map(|text| lines(text)).collect()
}

pub const USED: Place = Place { vertex: 3, before: 1, after: 2, open: true };

/// Buffers with some entries more than are needed.
fn ample(v: usize, t: usize) -> PackBuffers {
    PackBuffers { numbering: vec![7; v + 2], places: vec![USED; 1_026], pack: vec![5; 60], order: vec![9; t + 2] }
}

pub fn model(line: &str) -> (u64, Vec<u16>) {
    let mut w = line.split(' ').map(|n| n.parse::<u64>().expect("a number"));
    (w.next().unwrap(), w.map(|n| n as u16).collect())
}

fn pack_row(name: &str, limits: (u32, u32), line: &str, change: impl Fn(&mut PackBuffers)) -> (String, String) {
    let (v, list) = model(line);
    let mut buffers = ample(v as usize, list.len() / 3);
    change(&mut buffers);
    let x = Packing::new(limits, v, &list, buffers);
    let told = match x.answer {
        Ok(_) => "accepted".to_owned(),
        Err(n) => format!("refusal {n}"),
    };
    (format!("{name}: {told}"), antt::packing(&x))
}

/// A split makes two loops at six places; seven places come one operation later.
const LOOPS_FIRST: &str = "6 0 1 2 0 2 3 1 4 5 1 5 2 4 0 5 0 3 5";

/// Three places are the peak, in full loops four.
const SHORT: &str = "4 0 2 1 1 3 0";

/// A split makes two loops and a seventh place.
pub const SPLIT: &str = "6 1 3 2 2 4 5 2 3 4 1 0 3 2 5 0 0 1 2";

/// Lists, each refused or packed in ample buffers.
const LISTS: [(&str, &str); 23] = [
    ("union from a loop with a link; the peak of places is reached by it", "7 0 1 2 3 1 4 1 5 6 5 1 3 5 0 2 4 5 2 1 0 4 6 5 4 0 6 4"),
    ("1: four numbers", "4 0 1 2 3"),
    ("1 before 2", "2"),
    ("2: V 2", "2 0 1 0"),
    ("2: V 4,097", "4097 0 1 2"),
    ("V 4,096", "4096 0 1 2"),
    ("2 before 3", "2 0 1 2"),
    ("3: a number is V", "3 0 1 3"),
    ("3 before 4", "3 0 3 3"),
    ("4: first and second corner", "3 0 0 1 0 1 2"),
    ("4: second and third corner", "3 0 1 2 0 1 1"),
    ("4: third and first corner", "3 0 1 2 2 0 2"),
    ("4 before 5", "4 0 1 2 0 1 3 3 3 0"),
    ("5: second edges", "5 0 1 2 3 1 2 0 4 3"),
    ("5: a first and a third edge", "4 0 1 2 1 3 0 2 3 1"),
    ("5 before 6", "5 0 1 2 0 1 3"),
    ("6 before 7", "6 0 1 2 0 3 4"),
    ("6: vertex 0", "4 1 2 3"),
    ("7: a closed fan and an open one", "6 0 1 2 0 2 3 0 3 1 0 4 5"),
    ("7: two closed fans", "7 0 1 2 0 2 3 0 3 1 0 4 5 0 5 6 0 6 4"),
    ("7: vertex 1", "5 1 0 2 1 3 4"),
    ("7: the last vertex", "5 4 0 1 4 2 3"),
    ("one fan, listed from its middle", "5 0 2 3 0 1 2 0 3 4"),
];

/// 22, and its place among 7 to 11.
fn order_rows() -> Vec<(String, String)> {
    vec![
        pack_row("22: no order entry", LIMITS, "3 0 1 2", |r| r.order.clear()),
        pack_row("22: an order entry for each triangle but one", LIMITS, "4 0 1 2 1 0 3", |r| r.order.truncate(1)),
        pack_row("8 before 22: numbering", LIMITS, "3 0 1 2", |r| {
            r.numbering.truncate(2);
            r.order.clear();
        }),
        pack_row("8 before 22: places", LIMITS, "3 0 1 2", |r| {
            r.places.truncate(1_023);
            r.order.clear();
        }),
        pack_row("7 before 22", LIMITS, "5 0 1 2 0 3 4", |r| r.order.clear()),
        pack_row("22 before 9", (3, 1), "4 0 1 2 1 0 3", |r| r.order.truncate(1)),
        pack_row("22 before 10", (1_024, 1), SPLIT, |r| r.order.truncate(5)),
        pack_row("22 before 11", LIMITS, "3 0 1 2", |r| {
            r.pack.truncate(15);
            r.order.clear();
        }),
    ]
}

fn packings() -> Vec<(String, String)> {
    let same = |_: &mut PackBuffers| ();
    let mut rows: Vec<_> = models().iter().map(|(name, line)| pack_row(name, LIMITS, line, same)).collect();
    rows.extend(LISTS.iter().map(|(name, line)| pack_row(name, LIMITS, line, same)));
    let long = |n: usize| format!("3{}", " 0".repeat(n));
    rows.push(pack_row("24,576 numbers", LIMITS, &long(24_576), same));
    rows.push(pack_row("1: 24,579 numbers", LIMITS, &long(24_579), same));
    rows.push(pack_row("7 before 8", LIMITS, "5 0 1 2 0 3 4", |r| r.numbering.clear()));
    rows.push(pack_row("8: numbering", LIMITS, "3 0 1 2", |r| r.numbering.truncate(2)));
    rows.push(pack_row("8: places", LIMITS, "3 0 1 2", |r| r.places.truncate(1_023)));
    rows.push(pack_row("8 before 9", (3, 1), "4 0 1 2 1 0 3", |r| r.numbering.clear()));
    rows.push(pack_row("buffers just long enough", LIMITS, "3 0 1 2", |r| {
        r.numbering.truncate(3);
        r.places.truncate(1_024);
        r.pack.truncate(16);
        r.order.truncate(1);
    }));
    rows.extend(order_rows());
    rows.push(pack_row("9", (3, 1), "4 0 1 2 1 0 3", same));
    rows.push(pack_row("10", (1_024, 1), SPLIT, same));
    rows.push(pack_row("9 before 10 at one operation", (6, 1), SPLIT, same));
    rows.push(pack_row("10 at an operation before that of 9", (6, 1), LOOPS_FIRST, same));
    rows.push(pack_row("9 alone, later", (6, 100), LOOPS_FIRST, same));
    rows.push(pack_row("no 9: places are counted in shortened loops", (3, 1), SHORT, same));
    rows.push(pack_row("9: one place less", (2, 1), SHORT, same));
    rows.push(pack_row("9 before 11", (3, 1), "4 0 1 2 1 0 3", |r| r.pack.clear()));
    rows.push(pack_row("10 before 11", (1_024, 1), SPLIT, |r| r.pack.clear()));
    rows.push(pack_row("11", LIMITS, "3 0 1 2", |r| r.pack.truncate(15)));
    rows
}

fn unpack_row(name: &str, hex: &str, triangles: usize, places: usize) -> (String, String) {
    let bytes = unhex(hex).expect("hexadecimal");
    let x = Unpacking::new(&bytes, UnpackBuffers { triangles: vec![6; triangles], places: vec![USED; places] });
    let told = match x.answer {
        Ok(_) => "accepted".to_owned(),
        Err(n) => format!("refusal {n}"),
    };
    (format!("{name}: {told}"), antt::unpacking(&x))
}

pub const M1: &str = "0100080003000100030001020002edb0";

/// Packs, and how many numbers and records are lent for each.
const BYTES: [(&str, &str, usize, usize); 29] = [
    ("buffers just long enough", M1, 3, 1_024),
    ("12 before 13", "0100080002000100030001020002edb000", 32, 1_024),
    ("13 before 14", "0100080002000100030001020002edb0", 0, 1_024),
    ("14: triangles", M1, 2, 1_024),
    ("14: places", M1, 3, 1_023),
    ("14 before 15", "0100080003000100030001020000", 2, 1_024),
    ("16 before 17: forward in a loop of three", "0100080003000100030001020001e4", 3, 1_024),
    ("17 before 18: M10 with too few places", "0100080005000400050002020003e04008", 12, 1_024),
    ("18 before 19: M10 with a vertex too many", "0100080006000400060002020003e04008", 12, 1_024),
    ("a field after tag 02", "0100080003000100030001020002edb0030000", 32, 1_024),
    ("counts of 4,096, 8,192, 1,024 and 100, and no operations", "0100081000200004000064020000", 24_576, 1_024),
    ("eight bits left over", "0100080006000200030001020004edbedb00", 32, 1_024),
    ("five fill bits, the first is one", "0100080003000200030001020001f5", 32, 1_024),
    ("20: the shortest", "0100080005000400050002020005e0370026db", 32, 1_024),
    ("20: the shortest", "0100080005000400050002020005e186e004db", 32, 1_024),
    ("20: the shortest", "0100080005000400060002020005e1880136db", 32, 1_024),
    ("20: the shortest", "0100080005000400050002020005ec30e004db", 32, 1_024),
    ("20: the shortest", "0100080005000400060002020005ec310026db", 32, 1_024),
    ("20: a place of the vertex left, the other ended in a rim later", "0100080006000500070002020006e1862006db6c", 32, 1_024),
    ("20: both places of the vertex left", "0100080007000600080002020007e1880100db6db0", 32, 1_024),
    ("19 before 20: a vertex too many", "0100080006000400050002020005e186e004db", 32, 1_024),
    ("19: the peak in full loops is stated", "0100080004000200040001020003ed86c0", 32, 1_024),
    ("12: tag 00 for 01", "0000080003000100030001020002edb0", 32, 1_024),
    ("12: tag 01 for 02", "0100080003000100030001010002edb0", 32, 1_024),
    ("12: tag 03 for 02", "0100080003000100030001030002edb0", 32, 1_024),
    ("12: a length of 264", "0101080003000100030001020002edb0", 32, 1_024),
    ("12: a length of 258", "0100080003000100030001020102edb0", 32, 1_024),
    ("15: a union breaks off inside p", "0100080009000900090009020001f8", 32, 1_024),
    ("15: a union breaks off inside j", "0100080009000900090009020002f808", 32, 1_024),
];

fn unpackings() -> Vec<(String, String)> {
    let triangles = |name: &str| if name == "18: M10" { 24_577 } else { 32 };
    let mut rows: Vec<_> = lines(PACKS).iter().map(|(name, hex)| unpack_row(name, hex, triangles(name), 1_026)).collect();
    // The packs of the models.
    for (name, line) in models() {
        let (v, list) = model(&line);
        let x = Packing::new(LIMITS, v, &list, ample(v as usize, list.len() / 3));
        if let Ok(n) = x.answer {
            let hex: String = x.left.pack[..n].iter().map(|b| format!("{b:02x}")).collect();
            rows.push(unpack_row(&name, &hex, list.len() + 1, 1_024));
        }
    }
    rows.extend(BYTES.iter().map(|&(name, hex, triangles, places)| unpack_row(name, hex, triangles, places)));
    let long = "0100080003000100030001020100edb0".to_owned() + &"00".repeat(254);
    rows.push(unpack_row("a field of 256 bytes", &long, 32, 1_024));
    rows
}

/// An accepted model built by calls, its operations those of its packing.
fn built(name: &str, line: &str) -> Option<(String, String)> {
    let (v, list) = model(line);
    plain::check(v, &list).ok()?;
    let (ops, chosen) = expected::choose(v, &list, LIMITS).ok()?;
    let book = chosen.book;
    let mut calls = vec![format!("begin {v} {} {} {} {} 1024", list.len() / 3, book.peak_places, book.peak_loops, list.len())];
    calls.extend(ops.iter().map(|o| op_words(*o)));
    calls.push("finish".to_owned());
    Some((name.to_owned(), antt::building(&Building::new(&calls))))
}

/// Lists of calls; each begins at a remark, those of the second program at a beginning too.
fn buildings() -> Vec<(String, String)> {
    let mut rows: Vec<_> = models().iter().filter_map(|(name, line)| built(name, line)).collect();
    for text in [CALLS, MORE_CALLS] {
        let mut name = String::new();
        let mut calls: Vec<String> = Vec::new();
        let mut end = |name: &str, calls: &mut Vec<String>| {
            if !calls.is_empty() {
                rows.push((name.to_owned(), antt::building(&Building::new(calls))));
                calls.clear();
            }
        };
        for line in text.lines().map(str::trim) {
            if let Some(remark) = line.strip_prefix("# ") {
                end(&name, &mut calls);
                name = now(remark);
            } else if line.starts_with("begin") && std::ptr::eq(text, CALLS) {
                end(&name, &mut calls);
            }
            if !line.starts_with('#') {
                calls.push(line.to_owned());
            }
        }
        end(&name, &mut calls);
    }
    rows
}

/// Packs from counts and operations, with numbers in both bytes of a word and a length above 255.
fn packs() -> Vec<(String, String)> {
    [(0x1000, 0x2000, 0x0400, 0x64, 3), (0x0abc, 0x1cfd, 0x0323, 0x4d, 300)]
        .iter()
        .map(|&(v, t, places, loops, n)| {
            let row = antt::fields(Counts { v, t, places, loops }, &vec![0xa5; n]);
            (format!("{n} bytes of operations"), row)
        })
        .collect()
}

/// Looks across an edge: the three edges of a triangle, one that no triangle has, one that two have, one that three have (as their first,
/// their second and their third edge, with a triangle after them that has its opposite), an edge from a vertex to itself, and a vertex
/// that is in no triangle.
fn looks() -> Vec<(String, String)> {
    let twice = [5, 6, 7, 6, 5, 8, 7, 6, 8, 5, 6, 9];
    let thrice = [5, 6, 7, 10, 5, 6, 6, 9, 5, 6, 5, 8];
    let edges = [
        ("a first edge", twice, 6, 5),
        ("a second edge", twice, 6, 8),
        ("a third edge", twice, 7, 5),
        ("none", twice, 5, 7),
        ("the last of two", twice, 5, 6),
        ("the last of three", thrice, 5, 6),
        ("a vertex to itself", thrice, 6, 6),
        ("a number of no triangle", thrice, 11, 5),
    ];
    edges.iter().map(|&(name, list, p, q)| (name.to_owned(), antt::look(&list, p, q))).collect()
}

/// A list of rows, each with its remark.
fn section(name: &str, kind: &str, rows: &[(String, String)]) -> String {
    let mut out = format!("\nunfoldable pub {name} : List {kind}\n{name} =\n");
    for (remark, row) in rows {
        out += &format!("    -- {remark}\n    {row}\n    ∷\n");
    }
    out + "    []\n"
}

pub fn module() -> String {
    let sections = [
        ("pack_rows", "PackRow", "pack_right", packings()),
        ("unpack_rows", "UnpackRow", "unpack_right", unpackings()),
        ("call_rows", "CallRow", "calls_right", buildings()),
        ("fields_rows", "FieldsRow", "fields_right", packs()),
        ("look_rows", "LookRow", "look_right", looks()),
        ("whole_pack_rows", "WholePackRow", "whole_pack_right", [positions::packings(), notes::packings()].concat()),
        ("whole_rows", "WholeRow", "whole_right", [positions::packs(), notes::packs()].concat()),
        ("melt_rows", "MeltRow", "melt_right", furnace::packs()),
    ];
    let (uses, unfolding) = prelude(&sections.each_ref().map(|s| s.0));
    let mut out = String::from(
        "-- Models, packs and lists of calls that pin the rules, with the answers of the second program: one table, by computation.
-- Written by tests/definitions, never by hand; Bench has M1 to M10 as the rules write them, States the states of 21.
-- Assumes nothing.
",
    );
    out += &uses;
    for (name, kind, _, rows) in &sections {
        out += &section(name, kind, rows);
    }
    let all = sections.each_ref().map(|(name, _, right, _)| format!("all_right {right} {name}")).join(" && ");
    let claim = lines::broken(&format!("pub table : T ({all})"), &[lines::AT_OPERATOR], 4);
    out + &format!("\n{claim}\n{unfolding}\ntable = tt\n")
}
