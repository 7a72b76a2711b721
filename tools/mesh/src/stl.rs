//! STL, binary and ASCII. It has no vertex numbers: each corner comes with its coordinates.

use crate::model::{push_row, By, Model, Solid};
use crate::words::{finite, shown, Words};

const HEADER: usize = 84;
const FACET: usize = 50;

fn word_at(bytes: &[u8], at: usize) -> Option<[u8; 4]> {
    bytes.get(at..at + 4)?.try_into().ok()
}

/// The length that a binary file has by the count in its header.
fn stated_length(bytes: &[u8]) -> Option<u64> {
    word_at(bytes, HEADER - 4).map(|n| HEADER as u64 + FACET as u64 * u64::from(u32::from_le_bytes(n)))
}

/// A binary file may begin with `solid` too: its length decides, and then whether it has zero bytes where a text has none.
fn is_binary(bytes: &[u8]) -> bool {
    let start = bytes.trim_ascii_start();
    let solid = start.len() >= 5 && start[..5].eq_ignore_ascii_case(b"solid");
    stated_length(bytes) == Some(bytes.len() as u64) || !solid || bytes[..bytes.len().min(512)].contains(&0)
}

pub fn read(bytes: &[u8]) -> Result<Model, String> {
    if is_binary(bytes) {
        read_binary(bytes)
    } else {
        read_text(bytes)
    }
}

fn read_binary(bytes: &[u8]) -> Result<Model, String> {
    let Some(length) = stated_length(bytes) else {
        return Err(format!("this is no STL file: it has {} bytes, does not begin with 'solid', and a header has 84", bytes.len()));
    };
    if (bytes.len() as u64) < length {
        let facets = (length - HEADER as u64) / FACET as u64;
        return Err(format!("byte {}: the file ends, but the header states {facets} triangles, {length} bytes", bytes.len()));
    }
    let mut model = Model::new(By::Byte, None);
    model.rest = Some(length as usize).filter(|&end| end < bytes.len());
    for at in (HEADER..length as usize).step_by(FACET) {
        let first = model.points.len();
        for corner in 1..4 {
            model.points.push(point(bytes, at + 12 * corner)?);
        }
        model.add_face(&[first, first + 1, first + 2], at);
    }
    Ok(model)
}

fn point(bytes: &[u8], at: usize) -> Result<[f64; 3], String> {
    let point = [0, 4, 8].map(|i| word_at(bytes, at + i).map_or(f64::NAN, |word| f64::from(f32::from_le_bytes(word))));
    match finite(point) {
        true => Ok(point),
        false => Err(format!("byte {at}: a coordinate is not finite")),
    }
}

fn read_text(bytes: &[u8]) -> Result<Model, String> {
    let mut model = Model::new(By::Line, None);
    let mut words = Words::new(bytes, false);
    let mut inside = false;
    while let Some(word) = words.next() {
        match (word.to_ascii_lowercase().as_str(), inside) {
            ("solid" | "endsolid", _) => {
                inside = word.len() == "solid".len();
                words.skip_line();
            }
            ("facet", true) => read_facet(&mut words, &mut model)?,
            _ => {
                return words.fail(format_args!("'{}' instead of '{}'", shown(word), if inside { "facet' or 'endsolid" } else { "solid" }))
            }
        }
    }
    match inside {
        true => words.fail("the file ends before 'endsolid'"),
        false => Ok(model),
    }
}

/// The rest of a facet. Its normal says nothing that the corners do not, and is passed over.
fn read_facet(words: &mut Words, model: &mut Model) -> Result<(), String> {
    let (line, first) = (words.line, model.points.len());
    words.expect("normal")?;
    for _ in 0..3 {
        words.next();
    }
    words.expect("outer")?;
    words.expect("loop")?;
    for _ in 0..3 {
        words.expect("vertex")?;
        model.points.push(words.point()?);
    }
    words.expect("endloop")?;
    words.expect("endfacet")?;
    model.add_face(&[first, first + 1, first + 2], line);
    Ok(())
}

/// The unit normal by the turn of the corners; zero where they lie on a line.
fn normal([p, q, r]: [[f64; 3]; 3]) -> [f64; 3] {
    let [u, v] = [q, r].map(|s| [0, 1, 2].map(|i| s[i] - p[i]));
    let n = [0, 1, 2].map(|i| u[(i + 1) % 3] * v[(i + 2) % 3] - u[(i + 2) % 3] * v[(i + 1) % 3]);
    let length = n.iter().map(|c| c * c).sum::<f64>().sqrt();
    n.map(|c| if length > 0.0 && length.is_finite() { c / length + 0.0 } else { 0.0 })
}

pub fn binary(solid: &Solid) -> Result<Vec<u8>, String> {
    let count = u32::try_from(solid.triangles.len()).map_err(|_| "there are more triangles than binary STL can count")?;
    let mut bytes = b"binary STL".to_vec();
    bytes.resize(HEADER - 4, 0);
    bytes.extend(count.to_le_bytes());
    for corners in solid.triangles.iter().map(|t| solid.corners(t)) {
        let numbers = normal(corners).into_iter().chain(corners.into_iter().flatten());
        bytes.extend(numbers.flat_map(|c| (c as f32).to_le_bytes()));
        bytes.extend([0, 0]);
    }
    Ok(bytes)
}

pub fn text(solid: &Solid) -> Vec<u8> {
    let mut text = String::from("solid\n");
    for corners in solid.triangles.iter().map(|t| solid.corners(t)) {
        push_row(&mut text, "facet normal ", &normal(corners));
        text.push_str(" outer loop\n");
        for corner in &corners {
            push_row(&mut text, "  vertex ", corner);
        }
        text.push_str(" endloop\nendfacet\n");
    }
    text.push_str("endsolid\n");
    text.into_bytes()
}
