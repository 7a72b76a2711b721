//! What the stored programs of crates/ are run on, and what they must print: `stored FOLDER` writes stdin, args, data and stdout of
//! each into FOLDER, from the second program's vectors and answers. The test command holds them against the stored ones.

use compare::expected::{self, contents_of, with_field, with_note, Calls};
use compare::texts;
use cutborder::gen::{self, Model};
use cutborder::gen02;
use cutborder::proto::unhex;
use cutborder::rng::Rng;
use std::fs;
use std::path::Path;

const PACKS: &str = include_str!("../../../../reference/vectors/packs.txt");
const CALLS: &str = include_str!("../../../../reference/vectors/calls.txt");
const FORMAT: &str = include_str!("../../../../docs/FORMAT.md");

/// A pack that 20 refuses; those of the vectors have the peaks of full loops.
const TWENTY: &str = "0100080005000400050002020005e0370026db";

/// M2 of the paper, as text and as a list, its triangles turned over, and corners for it: six times its volume is -125.
const M2_TEXT: &[u8] = b"4\n0 1 2\n1 0 3\n2 1 3\n0 2 3\n";
const M2: [u16; 12] = [0, 1, 2, 1, 0, 3, 2, 1, 3, 0, 2, 3];
const M2_TURNED: [u16; 12] = [1, 0, 2, 0, 1, 3, 1, 2, 3, 2, 0, 3];
const CORNERS: [i32; 12] = [0, 0, 0, 5, 0, 0, 0, 5, 0, 0, 0, 5];

/// A note: a line that reads like a refusal, and what no text has.
const NOTE: &[u8] = b"refused 12\n\0\xff\0";

/// A program's input and the output that is expected.
fn store(folder: &Path, program: &str, input: &[u8], output: &[u8]) {
    let at = folder.join(program);
    fs::create_dir_all(&at).expect("a folder");
    fs::write(at.join("stdin"), input).expect("stdin");
    fs::write(at.join("stdout"), output).expect("stdout");
}

/// A file that a program finds where it is run.
fn store_data(folder: &Path, program: &str, name: &str, contents: &[u8]) {
    let at = folder.join(program).join("data");
    fs::create_dir_all(&at).expect("a folder");
    fs::write(at.join(name), contents).expect("data");
}

/// Packs with positions: M2's, turned over, and with positions that 23 refuses; a triangle's, which has a rim; spheres of any size. Packs
/// with a note: M2's, without positions and with them, and one that 25 refuses.
fn whole_packs() -> Vec<Vec<u8>> {
    let m2 = |list: &[u16]| texts::packed(4, list, Some(&CORNERS), None).0;
    let (two, _) = texts::packed(4, &M2, None, None);
    let rim = texts::packed(3, &[0, 1, 2], Some(&CORNERS[..9]), None).0;
    let mut packs = vec![m2(&M2), m2(&M2_TURNED), with_field(&two, &contents_of(&CORNERS[..9])), rim];
    let mut rng = Rng::new(13);
    packs.extend((1..4).map(|f| {
        let sphere = Model::of(&gen::icosphere(f));
        expected::packed(&sphere, Some(&gen02::positions(&mut rng, sphere.v as usize))).expect("a pack")
    }));
    packs.extend([None, Some(&CORNERS[..])].map(|positions| texts::packed(4, &M2, positions, Some(NOTE)).0));
    packs.push(with_note(&m2(&M2), &[]));
    packs
}

/// The files that a program is given that reads packs, beside one on standard input, and all that it must print: each that is accepted,
/// of all that follow, and the first pack of each refusal.
fn readings(folder: &Path, program: &str, first: &[u8], printed: fn(&[u8]) -> String, refusals: &[u8]) {
    let (mut args, mut output) = (String::from("-\n"), printed(first));
    let vectors = PACKS.lines().filter(|l| !l.starts_with('#')).chain([TWENTY]).map(|l| unhex(l).expect("hexadecimal"));
    for (i, pack) in vectors.chain(whole_packs()).enumerate() {
        let text = printed(&pack);
        let name = match text.strip_prefix("refused ") {
            Some(n) => format!("refused-{}", n.trim_end()),
            None => format!("accepted-{}", i + 1),
        };
        if pack != first && !args.contains(&format!("{name}\n")) {
            store_data(folder, program, &name, &pack);
            args += &(name + "\n");
            output += &text;
        }
    }
    for n in refusals {
        assert!(args.contains(&format!("refused-{n}\n")), "{program}: no pack that {n} refuses");
    }
    store(folder, program, first, output.as_bytes());
    fs::write(folder.join(program).join("args"), args).expect("args");
}

/// M2 with positions and a note for the program `pack`, and its pack for the program `note`.
fn packing(folder: &Path) {
    let (pack, _) = texts::packed(4, &M2, Some(&CORNERS), Some(NOTE));
    store(folder, "pack", M2_TEXT, &pack);
    store_data(folder, "pack", "corners", texts::lines_of(&CORNERS).as_bytes());
    store_data(folder, "pack", "remark", NOTE);
    fs::write(folder.join("pack/args"), "--positions\ncorners\n--note\nremark\n").expect("args");
    store(folder, "note", &pack, &texts::noted(&pack).0);
}

/// Lists for the program `check_list`: M2, and after it the smallest of each refusal 1 to 7.
fn checking(folder: &Path) {
    let refused: [(u64, &[u16]); 7] = [
        (3, &[]),
        (2, &[0, 1, 0]),
        (3, &[0, 1, 3]),
        (3, &[0, 1, 1]),
        (3, &[0, 1, 2, 0, 1, 2]),
        (4, &[0, 1, 2]),
        (5, &[0, 1, 2, 0, 3, 4]),
    ];
    let (mut args, mut output) = (String::from("-\n"), texts::checked(4, &M2));
    for (i, (v, list)) in refused.iter().enumerate() {
        let (name, printed) = (format!("refused-{}", i + 1), texts::checked(*v, list));
        assert_eq!(printed, format!("refused {}\n", i + 1));
        let words: Vec<String> = list.iter().map(u16::to_string).collect();
        store_data(folder, "check_list", &name, format!("{v}\n{}\n", words.join(" ")).as_bytes());
        args += &(name + "\n");
        output += &printed;
    }
    store(folder, "check_list", M2_TEXT, output.as_bytes());
    fs::write(folder.join("check_list/args"), args).expect("args");
}

/// The sentences that the program `explain` must print: the first two columns of the table of refusals in docs/FORMAT.md.
fn sentences() -> String {
    let table = FORMAT.lines().skip_while(|l| !l.starts_with("| N | Refused because |")).skip(2);
    let rows = table.take_while(|l| !l.is_empty()).filter_map(|l| l.strip_prefix("| ")?.split_once(" | "));
    rows.map(|(n, rest)| format!("{n} {}\n", rest.split(" | ").next().unwrap_or(""))).collect()
}

/// Building calls: the vectors, lines that are no call, and random lists, model after model.
fn calls() -> (String, String) {
    let no_calls = ["finish", "op new", "op split", "op split x", "op turn", "begin 3 1 3 1", "", "end"];
    let mut lines: Vec<String> = no_calls.map(String::from).to_vec();
    lines.extend(CALLS.lines().map(String::from));
    let mut rng = Rng::new(3);
    for i in 0..40 {
        lines.extend(expected::random_calls(&mut rng, 4 + 3 * i));
    }
    let mut book = Calls::default();
    let output = lines.iter().map(|l| book.line(l) + "\n").collect();
    (lines.iter().map(|l| l.clone() + "\n").collect(), output)
}

fn main() {
    let Some(folder) = std::env::args().nth(1) else {
        eprintln!("usage: stored FOLDER");
        std::process::exit(2);
    };
    let folder = Path::new(&folder);
    let (input, output) = calls();
    store(folder, "build", input.as_bytes(), output.as_bytes());
    packing(folder);
    checking(folder);
    store(folder, "explain", b"", sentences().as_bytes());
    let (m2, _) = texts::packed(4, &M2, None, None);
    readings(folder, "unpack", &m2, texts::unpacked, &[12, 13, 15, 16, 17, 18, 19, 20, 23, 25]);
    let (m2, _) = texts::packed(4, &M2, Some(&CORNERS), None);
    readings(folder, "volume", &m2, texts::measured, &[12, 13, 15, 16, 17, 18, 19, 20, 23, 24, 25]);
}
