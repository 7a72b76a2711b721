//! The programs `unpack`, `volume`, `note`, `check_list` and `pack` compared with the second program. `programs FOLDER`
//!
//! Every pack and model of the second program's vectors, random ones, sound and spoilt, with positions and notes and without, input that is
//! too long, and input that is none; packs in files that are named; files that are not there; what cannot be read.

use compare::expected::{self, random_note, unfit_note, with_note, UNFIT};
use compare::texts::{self, NO_MODEL, NO_POSITIONS};
use cutborder::gen::{self, Model};
use cutborder::gen02;
use cutborder::proto::unhex;
use cutborder::rng::Rng;
use std::ffi::{c_char, CStr};
use std::fmt::Debug;
use std::fs::{self, File, OpenOptions};
use std::io::Write;
use std::os::fd::FromRawFd;
use std::path::{Path, PathBuf};
use std::process::{Command, Stdio};

const PACKS: &str = include_str!("../../../../reference/vectors/packs.txt");
const MODELS: &str = include_str!("../../../../reference/vectors/models.txt");
const MORE_MODELS: &str = include_str!("../../../definitions/models.txt");
/// What stands in the order's file before; a refused model leaves it.
const OLD_ORDER: &str = "what was there before\n";

/// What the program writes for some bytes, with some arguments, and what it says on standard error.
fn told(program: &str, args: &[String], input: &[u8]) -> (Vec<u8>, String) {
    let mut command = Command::new(program);
    command.args(args).stdin(Stdio::piped()).stdout(Stdio::piped()).stderr(Stdio::piped());
    let mut child = command.spawn().expect("the program starts");
    let mut pipe = child.stdin.take().unwrap();
    let bytes = input.to_vec();
    // The program reads no more than it needs of an input that is too long.
    let writer = std::thread::spawn(move || drop(pipe.write_all(&bytes)));
    let out = child.wait_with_output().expect("the program ends");
    writer.join().unwrap();
    assert!(out.status.success(), "status {:?}", out.status);
    (out.stdout, String::from_utf8(out.stderr).expect("text"))
}

/// What it writes where it says nothing.
fn written(program: &str, args: &[String], input: &[u8]) -> Vec<u8> {
    let (out, said) = told(program, args, input);
    assert_eq!(said, "", "{program} {args:?}");
    out
}

fn printed(program: &str, input: &[u8]) -> String {
    String::from_utf8(written(program, &[], input)).expect("text")
}

/// What it prints with this standard input, and what it says on standard error.
fn printed_from(command: &str, program: &str, input: Stdio) -> (String, String) {
    let out = Command::new("sh").args(["-c", command, "sh", program]).stdin(input).output().expect("a shell");
    (String::from_utf8(out.stdout).expect("text"), String::from_utf8(out.stderr).expect("text"))
}

/// A torus of the most vertices and triangles.
fn torus() -> Model {
    Model::of(&gen::grid(64, 64, true, true, || true))
}

/// Bytes that are the two fields, whole and in order, and so many in all.
fn fields_of_length(n: usize) -> Vec<u8> {
    let mut bytes = unhex("0100080003000100030001020000").expect("hexadecimal");
    bytes[12..].copy_from_slice(&((n - 14) as u16).to_be_bytes());
    bytes.resize(n, 0xe0);
    bytes
}

/// Packs of all kinds.
fn many_packs() -> Vec<Vec<u8>> {
    let mut packs: Vec<Vec<u8>> = PACKS.lines().filter(|l| !l.starts_with('#')).map(|l| unhex(l).expect("hexadecimal")).collect();
    let mut rng = Rng::new(7);
    packs.extend((0..150).map(|_| expected::random_pack(&mut rng, 100)));
    packs.extend((0..400).map(|_| expected::random_whole_pack(&mut rng)));
    let positions = gen02::positions(&mut rng, 4_096);
    let torus = [None, Some(&positions[..])].map(|p| expected::packed(&torus(), p).expect("a pack"));
    packs.extend(torus.iter().map(|p| with_note(p, &random_note(&mut rng))));
    packs.extend(torus);
    packs.extend([vec![0; 65_536], vec![0; 65_537], vec![1; 200_000], fields_of_length(65_536), fields_of_length(65_537)]);
    packs
}

/// A program that reads packs, on packs of all kinds.
fn readings<T: PartialEq + Debug>(run: impl Fn(&[u8]) -> T, expected: fn(&[u8]) -> T) -> usize {
    let packs = many_packs();
    for p in &packs {
        assert_eq!(run(p), expected(p), "pack of {} bytes: {:02x?}", p.len(), &p[..p.len().min(60)]);
    }
    packs.len()
}

/// A folder of this process's own.
fn fresh_folder(name: &str) -> PathBuf {
    let folder = std::env::temp_dir().join(format!("{name}-{}", std::process::id()));
    fs::create_dir_all(&folder).expect("a folder");
    folder
}

/// What the program writes with `--order`, and to the file that this names, which held something before; positions are given as text. The
/// options stand in any order.
fn ordered(program: &str, folder: &Path, input: &[u8], positions: Option<&str>, note: Option<&[u8]>) -> (Vec<u8>, String) {
    let mut args = Vec::new();
    for (name, contents) in [("order", Some(OLD_ORDER.as_bytes())), ("positions", positions.map(str::as_bytes)), ("note", note)] {
        if let Some(bytes) = contents {
            let file = folder.join(name);
            fs::write(&file, bytes).expect("a file");
            args.extend([format!("--{name}"), file.to_str().expect("a name").to_string()]);
        }
    }
    let options = args.len() / 2;
    args.rotate_left(2 * (input.len() % options));
    let out = written(program, &args, input);
    (out, fs::read_to_string(folder.join("order")).expect("the order"))
}

/// What `unpack --positions` prints for an accepted pack, and writes to the file that this names.
fn unpack_positions(program: &str, own: &Path, pack: &[u8]) {
    let file = own.join("told");
    fs::write(&file, OLD_ORDER).expect("a file");
    let (out, said) = told(program, &["--positions".into(), file.to_str().expect("a name").into()], pack);
    let positions = fs::read_to_string(&file).expect("the positions");
    let expected = match texts::positions_in(pack) {
        Some(lines) => (texts::unpacked(pack), String::new(), lines),
        None => (String::new(), NO_POSITIONS.to_string(), OLD_ORDER.to_string()),
    };
    assert_eq!((String::from_utf8(out).expect("text"), said, positions), expected);
}

/// The packings of a model, without positions and a note, with some, and with such that do not fit; and what is read from the packs.
fn packings(folder: &str, own: &Path, rng: &mut Rng, text: &str) -> usize {
    let words: Vec<u64> = text.split_ascii_whitespace().filter_map(|w| w.parse().ok()).collect();
    let (v, list) = (words[0], words[1..].iter().map(|&x| x as u16).collect::<Vec<u16>>());
    let spaced = text.replace(' ', if list.len() % 2 == 0 { " " } else { "\n\t" });
    let sound = gen02::positions(rng, v.clamp(1, 4_096) as usize);
    let mut unfit = sound.clone();
    UNFIT[rng.below(UNFIT.len())].1(rng, &mut unfit);
    let (short, long) = (random_note(rng), unfit_note(rng));
    let (sound, unfit, short, long) = (Some(&sound[..]), Some(&unfit[..]), Some(&short[..]), Some(&long[..]));
    let cases = [(None, None), (sound, None), (unfit, None), (None, short), (sound, short), (None, long), (sound, long), (unfit, long)];
    assert_eq!(written(&format!("{folder}/pack"), &[], spaced.as_bytes()), texts::packed(v, &list, None, None).0, "model {text}");
    assert_eq!(printed(&format!("{folder}/check_list"), spaced.as_bytes()), texts::checked(v, &list), "model {text}");
    for (positions, note) in cases {
        let (pack, order) = texts::packed(v, &list, positions, note);
        let grid = positions.map(texts::lines_of);
        let answer = ordered(&format!("{folder}/pack"), own, spaced.as_bytes(), grid.as_deref(), note);
        let said = format!("model {text}, positions {positions:?}, note {note:02x?}");
        assert_eq!(answer, (pack.clone(), order.clone().unwrap_or(OLD_ORDER.into())), "{said}");
        if order.is_some() {
            assert_eq!(printed(&format!("{folder}/unpack"), &pack), texts::unpacked(&pack), "{said}");
            assert_eq!(printed(&format!("{folder}/volume"), &pack), texts::measured(&pack), "{said}");
            assert_eq!(written(&format!("{folder}/note"), &[], &pack), note.unwrap_or_default(), "{said}");
            unpack_positions(&format!("{folder}/unpack"), own, &pack);
        }
    }
    cases.len() + 2
}

/// The program `pack` on models of all kinds, the paper's and both fans among them; and what the others print for its packs.
fn packs(folder: &str) -> usize {
    let mut models: Vec<String> = MODELS.lines().chain(MORE_MODELS.lines()).filter(|l| !l.starts_with('#')).map(String::from).collect();
    let mut rng = Rng::new(11);
    models.extend([gen::fan(1_024), gen::fan(1_025), torus()].iter().map(Model::line));
    models.extend((0..100).map(|_| gen::model(&mut rng, 150).line()));
    models.extend((0..200).map(|_| gen02::model(&mut rng).line()));
    let own = fresh_folder("pack");
    let mut n: usize = models.iter().map(|text| packings(folder, &own, &mut rng, text)).sum();
    let pack = format!("{folder}/pack");
    let too_many = texts::lines_of(&[0; 3 * 4_096 + 1]);
    let answer = ordered(&pack, &own, torus().line().as_bytes(), Some(&too_many), None);
    assert_eq!(answer, (b"refused 23\n".to_vec(), OLD_ORDER.into()));
    fs::remove_dir_all(&own).expect("the folder");
    for (text, line) in [
        ("", NO_MODEL),
        ("x", NO_MODEL),
        ("3 0 1 -2", NO_MODEL),
        ("3 0 1 -0", NO_MODEL),
        ("-3 0 1 2", NO_MODEL),
        ("3 0 1 65536", NO_MODEL),
        ("3 0 1 65535", "refused 3\n"),
        ("3", "refused 1\n"),
        ("65536 0 1 2", "refused 2\n"),
        ("99999999999999999999999 0 1 2", "refused 2\n"),
    ] {
        for program in ["pack", "check_list"] {
            let (out, said) = told(&format!("{folder}/{program}"), &[], text.as_bytes());
            let expected = if line == NO_MODEL { (String::new(), format!("{program}: {line}")) } else { (line.to_string(), String::new()) };
            assert_eq!((String::from_utf8(out).expect("text"), said), expected, "{program}: {text}");
            n += 1;
        }
    }
    for program in [pack, format!("{folder}/check_list")] {
        assert_eq!(printed(&program, "3 ".repeat(30_000).as_bytes()), "refused 1\n");
        n += 1;
    }
    n + 1
}

extern "C" {
    fn posix_openpt(flags: i32) -> i32;
    fn unlockpt(fd: i32) -> i32;
    fn ptsname(fd: i32) -> *const c_char;
}

/// A terminal at which somebody types the end of the input and nothing else: both its ends, or none if the system has no terminals.
fn terminal() -> Option<(File, File)> {
    const READ_WRITE: i32 = 2;
    // SAFETY: the descriptor is new and owned by the file alone; the name is copied before the next call.
    let (mut keyboard, name) = unsafe {
        let fd = posix_openpt(READ_WRITE);
        if fd < 0 || unlockpt(fd) != 0 || ptsname(fd).is_null() {
            return None;
        }
        (File::from_raw_fd(fd), CStr::from_ptr(ptsname(fd)).to_str().ok()?.to_owned())
    };
    let screen = OpenOptions::new().read(true).write(true).open(name).ok()?;
    keyboard.write_all(&[4]).ok()?;
    Some((keyboard, screen))
}

/// Input that is empty, or a terminal, is answered by a line, on standard output or on standard error; that which is closed, or a folder,
/// cannot be read: how many of these.
fn odd(program: &str, out: &str, said: &str) -> usize {
    let answer = (out.to_string(), said.to_string());
    assert_eq!(printed_from("exec \"$1\"", program, Stdio::null()), answer, "no input");
    for (command, input) in [("exec \"$1\" <&-", Stdio::null()), ("exec \"$1\"", File::open(".").expect("this folder").into())] {
        let (out, said) = printed_from(command, program, input);
        assert_eq!(out, "", "{command}");
        assert!(said.lines().count() == 1 && said.contains("cannot read standard input"), "{command}: {said}");
    }
    let Some((_keyboard, screen)) = terminal() else {
        println!("no terminal here: not tried");
        return 3;
    };
    assert_eq!(printed_from("exec \"$1\"", program, screen.into()), answer, "a terminal");
    4
}

/// A program that reads packs, on files: those that are there print as they would alone, each other gets a line of its own on standard
/// error.
fn named(program: &str, expected: fn(&[u8]) -> String) -> usize {
    let folder = fresh_folder("named");
    let packs: Vec<Vec<u8>> = PACKS.lines().filter(|l| !l.starts_with('#')).take(9).map(|l| unhex(l).expect("hexadecimal")).collect();
    let (mut command, mut text) = (Command::new(program), String::new());
    for (i, p) in packs.iter().enumerate() {
        let file = folder.join(i.to_string());
        fs::write(&file, p).expect("a pack");
        command.arg(&file).arg(folder.join(format!("no{i}")));
        text += &expected(p);
    }
    let out = command.arg("").arg("x".repeat(5_000)).arg(&folder).stdin(Stdio::null()).output().expect("the program starts");
    fs::remove_dir_all(&folder).expect("the folder");
    assert!(out.status.success(), "status {:?}", out.status);
    assert_eq!(String::from_utf8_lossy(&out.stdout), text);
    let said = String::from_utf8_lossy(&out.stderr).into_owned();
    assert_eq!(said.lines().count(), packs.len() + 3, "{said}");
    assert!((0..packs.len()).all(|i| said.contains(&format!("no{i}: No such file"))), "{said}");
    2 * packs.len() + 3
}

fn main() {
    let Some(folder) = std::env::args().nth(1) else {
        eprintln!("usage: programs FOLDER");
        std::process::exit(2);
    };
    for (name, expected) in [("unpack", texts::unpacked as fn(&[u8]) -> String), ("volume", texts::measured)] {
        let program = format!("{folder}/{name}");
        let alike = readings(|p| printed(&program, p), expected) + named(&program, expected) + odd(&program, "refused 12\n", "");
        println!("program {name}: {alike} inputs alike");
    }
    let note = format!("{folder}/note");
    let alike = readings(|p| told(&note, &[], p), texts::noted) + odd(&note, "refused 12\n", texts::NO_NOTE);
    println!("program note: {alike} inputs alike");
    let alike: usize = ["pack", "check_list"].map(|p| odd(&format!("{folder}/{p}"), "", &format!("{p}: {NO_MODEL}"))).iter().sum();
    println!("programs pack and check_list: {} inputs alike", alike + packs(&folder));
}
