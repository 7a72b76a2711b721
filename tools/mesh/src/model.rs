//! A model as a file has it, and which reader a file is for.

use crate::{obj, off, ply, stl};

pub struct Triangle {
    pub corners: [usize; 3],
    /// The facet or polygon of the file that it is of, counted from 0.
    pub face: usize,
    /// The line or the byte of the file where that stands.
    pub at: usize,
}

/// What the numbers in `at` count.
#[derive(Clone, Copy, PartialEq)]
pub enum By {
    Line,
    Byte,
}

pub struct Model {
    pub points: Vec<[f64; 3]>,
    pub triangles: Vec<Triangle>,
    pub by: By,
    /// The number that the file's first vertex has; STL numbers none.
    pub first: Option<usize>,
    pub faces: usize,
    /// Faces of more than three corners, which are cut into triangles, and of fewer, which are left out.
    pub cut: usize,
    pub short: usize,
    /// Where something stands that follows the model and is not read.
    pub rest: Option<usize>,
}

impl Model {
    pub fn new(by: By, first: Option<usize>) -> Self {
        Model { points: vec![], triangles: vec![], by, first, faces: 0, cut: 0, short: 0, rest: None }
    }

    /// One more face. A polygon is cut as a fan about its first corner.
    pub fn add_face(&mut self, corners: &[usize], at: usize) {
        self.cut += usize::from(corners.len() > 3);
        self.short += usize::from(corners.len() < 3);
        for pair in corners.windows(2).skip(1) {
            self.triangles.push(Triangle { corners: [corners[0], pair[0], pair[1]], face: self.faces, at });
        }
        self.faces += 1;
    }

    /// Where something stands in the file.
    pub fn place(&self, at: usize) -> String {
        match self.by {
            By::Line => format!("line {at}"),
            By::Byte => format!("byte {at}"),
        }
    }

    /// The model, if every corner is one of its points.
    pub fn whole(self) -> Result<Self, String> {
        let count = self.points.len();
        let outside = |t: &&Triangle| t.corners.iter().any(|&c| c >= count);
        match self.triangles.iter().find(outside) {
            Some(t) => Err(format!("{}: a face names a vertex beyond the {count} that there are", self.place(t.at))),
            None => Ok(self),
        }
    }
}

/// Reads the bytes of a file of a format.
pub fn read(bytes: &[u8], format: &str) -> Result<Model, String> {
    match format {
        "stl" => stl::read(bytes),
        "obj" => obj::read(bytes),
        "off" => off::read(bytes),
        "ply" => ply::read(bytes),
        _ => Err(format!("'{format}' is not a format that is read: stl, obj, off or ply")),
    }
}

/// Triangles with their corners' coordinates, to be written.
pub struct Solid {
    pub points: Vec<[f64; 3]>,
    pub triangles: Vec<[usize; 3]>,
}

impl Solid {
    pub fn corners(&self, triangle: &[usize; 3]) -> [[f64; 3]; 3] {
        triangle.map(|c| self.points[c])
    }

    /// The bytes of a file of a format.
    pub fn written(&self, format: &str) -> Result<Vec<u8>, String> {
        match format {
            "stl" => stl::binary(self),
            "stl-ascii" => Ok(stl::text(self)),
            "obj" => Ok(obj::text(self)),
            "off" => Ok(off::text(self)),
            "ply" => Ok(ply::text(self)),
            _ => Err(format!("'{format}' is not a format that is written: stl, stl-ascii, obj, off or ply")),
        }
    }
}

/// Numbers with a separator between, at the end of a text.
pub fn push_row<T: std::fmt::Display>(text: &mut String, before: &str, row: &[T]) {
    let words: Vec<String> = row.iter().map(T::to_string).collect();
    text.push_str(before);
    text.push_str(&words.join(" "));
    text.push('\n');
}
