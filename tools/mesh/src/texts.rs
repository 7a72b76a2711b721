//! The texts of the programs: lists, unpacked models, positions.

use crate::model::{push_row, Solid};
use crate::words::Words;

pub fn rows<T: std::fmt::Display>(rows: &[[T; 3]]) -> String {
    let mut text = String::new();
    for row in rows {
        push_row(&mut text, "", row);
    }
    text
}

/// V and the numbers of a list, or of an unpacked model.
pub fn read_list(text: &[u8]) -> Result<(u64, Vec<u64>), String> {
    let mut words = Words::new(text, false);
    let first = words.next().ok_or("there is no list")?;
    if first == "refused" {
        return Err(format!("this is no list but a refusal, number {}", words.next().unwrap_or("?")));
    }
    let stated = first == "model";
    let v = if stated { words.number("a count of vertices")? } else { words.parse(first, "a count of vertices")? };
    let t: Option<u64> = if stated { Some(words.number("a count of triangles")?) } else { None };
    if stated {
        words.skip_line();
    }
    let mut list = vec![];
    while let Some(word) = words.next() {
        list.push(words.parse(word, "a vertex number")?);
    }
    match t {
        Some(t) if t.checked_mul(3) != Some(list.len() as u64) => Err(format!("{t} triangles are stated, {} numbers follow", list.len())),
        _ => Ok((v, list)),
    }
}

pub fn read_positions(text: &[u8]) -> Result<Vec<[f64; 3]>, String> {
    let mut words = Words::new(text, false);
    let mut numbers = vec![];
    while let Some(word) = words.next() {
        numbers.push(f64::from(words.parse::<i16>(word, "a position")?));
    }
    match numbers.len() % 3 {
        0 => Ok(numbers.chunks(3).map(|p| [p[0], p[1], p[2]]).collect()),
        _ => Err(format!("{} numbers are not three for each vertex", numbers.len())),
    }
}

/// The triangles of a list at the points of its vertices.
pub fn solid(v: u64, list: &[u64], points: Vec<[f64; 3]>) -> Result<Solid, String> {
    if points.len() as u64 != v {
        return Err(format!("the model has {v} vertices, the positions are those of {}", points.len()));
    }
    if list.len() % 3 != 0 {
        return Err(format!("{} numbers are not three for each triangle", list.len()));
    }
    if let Some(number) = list.iter().find(|&&number| number >= v) {
        return Err(format!("the model has {v} vertices, and a triangle names vertex {number}"));
    }
    let triangles = list.chunks(3).map(|t| [t[0], t[1], t[2]].map(|c| c as usize)).collect();
    Ok(Solid { points, triangles })
}
