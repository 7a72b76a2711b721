//! OFF, with colours, normals or texture coordinates or without, which are passed over.

use crate::model::{push_row, By, Model, Solid};
use crate::words::{shown, Words};

/// Reads the first word, if it is a header, and the counts of vertices and faces.
fn read_counts(words: &mut Words) -> Result<(usize, usize), String> {
    let first = words.next().ok_or("the file is empty")?;
    let vertices = match first.strip_suffix("OFF") {
        None => words.parse(first, "'OFF' or a count of vertices")?,
        Some("" | "C" | "N" | "CN" | "ST" | "STC" | "STN" | "STCN") => words.number("a count of vertices ('OFF BINARY' is not read)")?,
        Some(_) => return words.fail(format_args!("'{}' is not read: its vertices have other coordinates than x y z", shown(first))),
    };
    let faces = words.number("a count of faces")?;
    words.skip_line();
    Ok((vertices, faces))
}

pub fn read(bytes: &[u8]) -> Result<Model, String> {
    let mut model = Model::new(By::Line, Some(0));
    let mut words = Words::new(bytes, true);
    let (vertices, faces) = read_counts(&mut words)?;
    for _ in 0..vertices {
        model.points.push(words.point()?);
        words.skip_line();
    }
    for _ in 0..faces {
        read_face(&mut words, &mut model)?;
        words.skip_line();
    }
    model.rest = words.next().map(|_| words.line);
    model.whole()
}

fn read_face(words: &mut Words, model: &mut Model) -> Result<(), String> {
    let count: usize = words.number("a count of corners")?;
    let line = words.line;
    let mut corners = vec![];
    for _ in 0..count {
        corners.push(words.number("a vertex number")?);
    }
    model.add_face(&corners, line);
    Ok(())
}

pub fn text(solid: &Solid) -> Vec<u8> {
    let mut text = String::from("OFF\n");
    push_row(&mut text, "", &[solid.points.len(), solid.triangles.len(), 0]);
    for point in &solid.points {
        push_row(&mut text, "", point);
    }
    for triangle in &solid.triangles {
        push_row(&mut text, "3 ", triangle);
    }
    text.into_bytes()
}
