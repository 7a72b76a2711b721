//! OBJ: `v` and `f` lines; all others say nothing of the triangles.

use crate::model::{push_row, By, Model, Solid};
use crate::words::Words;

pub fn read(bytes: &[u8]) -> Result<Model, String> {
    let mut model = Model::new(By::Line, Some(1));
    let mut words = Words::new(bytes, true);
    while let Some(word) = words.next() {
        match word {
            "v" => model.points.push(words.point()?),
            "f" => read_face(&mut words, &mut model)?,
            _ => (),
        }
        words.skip_line();
    }
    model.whole()
}

fn read_face(words: &mut Words, model: &mut Model) -> Result<(), String> {
    let line = words.line;
    let mut corners = vec![];
    while let Some(word) = words.on_line() {
        corners.push(corner(words, word, model.points.len())?);
    }
    model.add_face(&corners, line);
    Ok(())
}

/// The vertex of a corner `v`, `v/vt`, `v//vn` or `v/vt/vn`, counted from 0. A negative number counts back from the last vertex so far.
fn corner(words: &Words, word: &str, so_far: usize) -> Result<usize, String> {
    let number: i64 = words.parse(word.split('/').next().unwrap_or(word), "a vertex number")?;
    let vertex = if number > 0 { Some(number - 1) } else { number.checked_add_unsigned(so_far as u64).filter(|_| number < 0) };
    match vertex.and_then(|v| usize::try_from(v).ok()) {
        Some(vertex) => Ok(vertex),
        None => words.fail(format_args!("there is no vertex {number}")),
    }
}

pub fn text(solid: &Solid) -> Vec<u8> {
    let mut text = String::new();
    for point in &solid.points {
        push_row(&mut text, "v ", point);
    }
    for triangle in &solid.triangles {
        push_row(&mut text, "f ", &triangle.map(|c| c + 1));
    }
    text.into_bytes()
}
