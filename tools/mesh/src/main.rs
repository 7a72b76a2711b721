//! Mesh files as lists with positions on the grid, and back; what is at fault in a list that the service refuses. `usage.txt` has the
//! commands.

mod arguments; // options and files
mod fault; // rules 1 to 7
mod grid; // scale, welding, what is dropped
mod model; // a model as a file has it
mod obj;
mod off;
mod ply;
mod stl;
#[cfg(test)]
mod tests;
mod texts; // lists, unpacked models and positions
mod words; // texts by words and lines

use arguments::Arguments;
use fault::{first_broken, Fault, Names, Numbers};
use grid::{lay, Frame, Laid, Weld};
use model::Model;
use std::ffi::{OsStr, OsString};
use std::io::{Read, Write};

const USAGE: &str = include_str!("usage.txt");

/// How many faults are told, and how many triangles of a kind are named, unless all are asked for.
const FEW: usize = 10;

const REFUSED: i32 = 1;
const FAILED: i32 = 2;

/// A line on standard error.
fn say(line: &str) {
    let _ = writeln!(std::io::stderr(), "mesh: {line}");
}

fn read_bytes(name: &OsStr) -> Result<Vec<u8>, String> {
    let mut bytes = vec![];
    let read = match name == "-" {
        true => std::io::stdin().read_to_end(&mut bytes).map(|_| bytes),
        false => std::fs::read(name),
    };
    read.map_err(|e| format!("cannot read {}: {e}", shown(name)))
}

fn shown(name: &OsStr) -> String {
    if name == "-" {
        "standard input".into()
    } else {
        name.to_string_lossy().into_owned()
    }
}

/// Writes to a file, or to standard output where none is named.
fn write_bytes(name: Option<&OsStr>, bytes: &[u8]) -> Result<(), String> {
    let mut out = std::io::stdout();
    let written = match name {
        Some(name) => std::fs::write(name, bytes),
        None => out.write_all(bytes).and_then(|()| out.flush()),
    };
    written.map_err(|e| format!("cannot write {}: {e}", name.map_or("standard output".into(), shown)))
}

/// A list by the numbers and places that its triangles and vertices have in the file.
struct InFile<'a>(&'a Model, &'a Laid);

impl Names for InFile<'_> {
    fn triangle(&self, triangle: usize) -> String {
        format!("{triangle} ({})", place(self.0, self.1.triangle_of[triangle]))
    }

    fn vertex(&self, vertex: u64) -> String {
        let old = self.1.vertex_of[vertex as usize];
        let [x, y, z] = self.0.points[old].map(shortest);
        let number = self.0.first.map_or(String::new(), |first| format!(", {} in the file,", first + old));
        format!("{vertex}{number} at ({x}, {y}, {z})")
    }
}

/// A coordinate, by the digits of single precision where it has no more.
fn shortest(c: f64) -> String {
    let single = c as f32;
    if f64::from(single) == c {
        single.to_string()
    } else {
        c.to_string()
    }
}

/// The face that a triangle of a model is of, and where that stands.
fn place(model: &Model, triangle: usize) -> String {
    let t = &model.triangles[triangle];
    format!("face {}, {}", t.face, model.place(t.at))
}

/// Tells what the file had, and what became of it.
fn say_laid(model: &Model, laid: &Laid, kept: bool, most: usize) {
    let [x, y, z] = laid.frame.origin;
    let (step, scale) = (laid.frame.step, 1.0 / laid.frame.step);
    let (triangles, vertices) = (laid.list.len(), laid.positions.len());
    say(&format!("read: {} faces, {} vertices; listed: {triangles} triangles, {vertices} vertices", model.faces, model.points.len()));
    say(&format!("a step is {step} of the file's units (scale {scale}), grid point 0 is at ({x}, {y}, {z})"));
    say(&format!("largest rounding error of a coordinate: {} of the file's units", laid.rounding));
    let mut collapsed: Vec<String> = laid.collapsed.iter().take(most).map(|&t| place(model, t)).collect();
    collapsed.extend((laid.collapsed.len() > most).then(|| "..".into()));
    let fate = if kept { "kept" } else { "left out" };
    let remarks = [
        ("vertices welded to others", laid.welded),
        ("vertices in no face, left out", laid.unused),
        ("faces of more than three corners, cut into triangles", model.cut),
        ("faces of fewer than three corners, left out", model.short),
        (&format!("triangles with a vertex twice, {fate} ({})", collapsed.join("; ")), laid.collapsed.len()),
        ("vertices on another's grid point, which stay apart without --weld grid", laid.on_one_point()),
    ];
    for (remark, count) in remarks.iter().filter(|(_, count)| *count > 0) {
        say(&format!("{remark}: {count}"));
    }
    if let Some(at) = model.rest {
        say(&format!("{}: what follows the stated model is not read", model.place(at)));
    }
}

/// Tells what is at fault, if anything; the status.
fn say_faults(broken: Option<(u8, Vec<Fault>)>, names: &impl Names, most: usize) -> i32 {
    let Some((number, faults)) = broken else {
        return 0;
    };
    for line in fault::lines(number, &faults, names, most) {
        say(&line);
    }
    REFUSED
}

fn format_of(arguments: &Arguments) -> Result<String, String> {
    let ending = std::path::Path::new(&arguments.file).extension().map(|e| e.to_string_lossy().to_lowercase());
    arguments.text("--format").or(ending).ok_or("what format it has is not told by a name: --format stl, obj, off or ply".into())
}

fn scale_of(arguments: &Arguments) -> Result<Option<f64>, String> {
    let Some(word) = arguments.text("--scale") else {
        return Ok(None);
    };
    match word.parse::<f64>() {
        Ok(scale) if scale > 0.0 && scale.is_finite() => Ok(Some(scale)),
        _ => Err(format!("'{word}' is not a scale")),
    }
}

fn weld_of(arguments: &Arguments) -> Result<Weld, String> {
    match arguments.text("--weld").as_deref() {
        None | Some("equal") => Ok(Weld::Equal),
        Some("grid") => Ok(Weld::Grid),
        Some("none") => Ok(Weld::Nothing),
        Some(other) => Err(format!("'{other}' is not a way to weld: equal, grid or none")),
    }
}

fn most_of(arguments: &Arguments) -> usize {
    if arguments.has("--all") {
        usize::MAX
    } else {
        FEW
    }
}

/// The positions and the frame are written before the list, so that whoever reads the list to its end finds them.
fn list(arguments: &Arguments) -> Result<i32, String> {
    let (format, scale, which) = (format_of(arguments)?, scale_of(arguments)?, weld_of(arguments)?);
    let kept = arguments.has("--keep-collapsed");
    let bytes = read_bytes(&arguments.file)?;
    let model = model::read(&bytes, &format);
    let laid = model.and_then(|model| lay(&model, scale, which, kept).map(|laid| (model, laid)));
    let (model, laid) = laid.map_err(|why| format!("{}: {why}", shown(&arguments.file)))?;
    if let Some(name) = arguments.value("--positions") {
        write_bytes(Some(name), texts::rows(&laid.positions).as_bytes())?;
    }
    if let Some(name) = arguments.value("--frame") {
        write_bytes(Some(name), laid.frame.text().as_bytes())?;
    }
    let text = format!("{}\n{}", laid.positions.len(), texts::rows(&laid.list));
    write_bytes(arguments.value("-o"), text.as_bytes())?;
    say_laid(&model, &laid, kept, most_of(arguments));
    let numbers: Vec<u64> = laid.list.iter().flatten().map(|&c| c as u64).collect();
    let broken = first_broken(laid.positions.len() as u64, &numbers);
    Ok(say_faults(broken, &InFile(&model, &laid), most_of(arguments)))
}

fn fault(arguments: &Arguments) -> Result<i32, String> {
    let bytes = read_bytes(&arguments.file)?;
    let (v, list) = texts::read_list(&bytes).map_err(|why| format!("{}: {why}", shown(&arguments.file)))?;
    let broken = first_broken(v, &list);
    let answer = broken.as_ref().map_or("ok\n".into(), |(number, _)| format!("refused {number}\n"));
    write_bytes(None, answer.as_bytes())?;
    Ok(say_faults(broken, &Numbers, most_of(arguments)))
}

/// Standard input is read to its end before the positions: `unpack` may still be writing them.
fn model(arguments: &Arguments) -> Result<i32, String> {
    let name = arguments.value("--positions").ok_or("--positions FILE is missing")?;
    let format = arguments.text("--format").ok_or("--format is missing: stl, stl-ascii, obj, off or ply")?;
    let bytes = read_bytes(&arguments.file)?;
    let (v, list) = texts::read_list(&bytes).map_err(|why| format!("{}: {why}", shown(&arguments.file)))?;
    let steps = texts::read_positions(&read_bytes(name)?).map_err(|why| format!("{}: {why}", shown(name)))?;
    let frame = match arguments.value("--frame") {
        Some(name) => Frame::read(&read_bytes(name)?).map_err(|why| format!("{}: {why}", shown(name)))?,
        None => Frame { step: 1.0, origin: [0.0; 3] },
    };
    let points = steps.into_iter().map(|p| frame.point(p)).collect();
    write_bytes(arguments.value("-o"), &texts::solid(v, &list, points)?.written(&format)?)?;
    Ok(0)
}

type Command = fn(&Arguments) -> Result<i32, String>;

/// The command and its arguments; none where they are wrong.
fn command(words: &[OsString]) -> Option<(Command, Arguments)> {
    let (name, rest) = words.split_first()?;
    let (command, with_value, without): (Command, &[_], &[_]) = match name.to_str()? {
        "list" => (list, &["--positions", "--frame", "--scale", "--format", "--weld", "-o"], &["--keep-collapsed", "--all"]),
        "fault" => (fault, &[], &["--all"]),
        "model" => (model, &["--positions", "--frame", "--format", "-o"], &[]),
        _ => return None,
    };
    Some((command, Arguments::read(rest, with_value, without)?))
}

fn main() {
    let words: Vec<OsString> = std::env::args_os().skip(1).collect();
    let done = match command(&words) {
        _ if words.iter().any(|word| word == "--help") => write_bytes(None, USAGE.as_bytes()).map(|()| 0),
        Some((command, arguments)) => command(&arguments),
        None => {
            let _ = std::io::stderr().write_all(USAGE.as_bytes());
            std::process::exit(FAILED)
        }
    };
    std::process::exit(done.unwrap_or_else(|why| {
        say(&why);
        FAILED
    }))
}
