//! PLY: ASCII, or binary with the low or the high byte first. Of its elements `vertex` and `face` are read, all else is passed over.

use crate::model::{push_row, By, Model, Solid};
use crate::words::{finite, shown, Words};

#[derive(Clone, Copy)]
enum Scalar {
    Signed(usize),
    Unsigned(usize),
    Float(usize),
}

struct Property {
    name: String,
    /// The type of a list's length, where it is a list.
    length: Option<Scalar>,
    kind: Scalar,
}

struct Element {
    name: String,
    count: u64,
    properties: Vec<Property>,
}

#[derive(Clone, Copy, PartialEq)]
enum Encoding {
    Text,
    Low,
    High,
}

fn scalar(words: &mut Words) -> Result<Scalar, String> {
    Ok(match words.on_line() {
        Some("char" | "int8") => Scalar::Signed(1),
        Some("short" | "int16") => Scalar::Signed(2),
        Some("int" | "int32") => Scalar::Signed(4),
        Some("uchar" | "uint8") => Scalar::Unsigned(1),
        Some("ushort" | "uint16") => Scalar::Unsigned(2),
        Some("uint" | "uint32") => Scalar::Unsigned(4),
        Some("float" | "float32") => Scalar::Float(4),
        Some("double" | "float64") => Scalar::Float(8),
        other => return words.fail(format_args!("'{}' is not a type", shown(other.unwrap_or("")))),
    })
}

fn property(words: &mut Words) -> Result<Property, String> {
    let mut ahead = words.clone();
    let is_list = ahead.on_line() == Some("list");
    if is_list {
        words.on_line();
    }
    let length = if is_list { Some(scalar(words)?) } else { None };
    let kind = scalar(words)?;
    match (length, words.on_line()) {
        (Some(Scalar::Float(_)), _) => words.fail("the length of a list is not a whole number"),
        (_, None) => words.fail("a property has no name"),
        (_, Some(name)) => Ok(Property { name: name.into(), length, kind }),
    }
}

fn encoding(words: &mut Words) -> Result<Encoding, String> {
    match words.on_line() {
        Some("ascii") => Ok(Encoding::Text),
        Some("binary_little_endian") => Ok(Encoding::Low),
        Some("binary_big_endian") => Ok(Encoding::High),
        other => words.fail(format_args!("'{}' is not an encoding", shown(other.unwrap_or("")))),
    }
}

/// Reads the header; the words then stand at the first byte after it.
fn header(words: &mut Words) -> Result<(Encoding, Vec<Element>), String> {
    words.expect("ply")?;
    let mut encoded = None;
    let mut elements: Vec<Element> = vec![];
    while words.next_line() {
        match (words.on_line(), elements.last_mut()) {
            (Some("format"), _) => encoded = Some(encoding(words)?),
            (Some("element"), _) => {
                let name = words.on_line().unwrap_or("").into();
                elements.push(Element { name, count: words.number_on_line("a count")?, properties: vec![] });
            }
            (Some("property"), Some(element)) => element.properties.push(property(words)?),
            (Some("end_header"), _) => {
                words.next_line();
                return encoded.map(|e| (e, elements)).ok_or("the header has no line 'format'".into());
            }
            (None | Some("comment" | "obj_info"), _) => (),
            (Some(word), _) => return words.fail(format_args!("'{}' is not expected in the header", shown(word))),
        }
    }
    Err(format!("line {}: the header does not end", words.line))
}

/// The values after the header, in either form.
struct Values<'a> {
    words: Words<'a>,
    bytes: &'a [u8],
    at: usize,
    encoding: Encoding,
}

impl Values<'_> {
    fn fail<T>(&self, why: &str) -> Result<T, String> {
        match self.encoding {
            Encoding::Text => self.words.fail(why),
            _ => Err(format!("byte {}: {why}", self.at)),
        }
    }

    /// A value of a type. All whole numbers that PLY has are exact in it.
    fn value(&mut self, kind: Scalar) -> Result<f64, String> {
        if self.encoding == Encoding::Text {
            return self.words.number("a value");
        }
        let (Scalar::Signed(size) | Scalar::Unsigned(size) | Scalar::Float(size)) = kind;
        let Some(part) = self.bytes.get(self.at..self.at + size) else {
            return self.fail("the file ends where a value is expected");
        };
        self.at += size;
        let high_first: Vec<u8> = if self.encoding == Encoding::High { part.to_vec() } else { part.iter().rev().copied().collect() };
        let bits = high_first.iter().fold(0u64, |bits, &byte| bits << 8 | u64::from(byte));
        let spare = 64 - 8 * size as u32;
        Ok(match kind {
            Scalar::Unsigned(_) => bits as f64,
            Scalar::Signed(_) => ((bits << spare) as i64 >> spare) as f64,
            Scalar::Float(4) => f64::from(f32::from_bits(bits as u32)),
            Scalar::Float(_) => f64::from_bits(bits),
        })
    }

    /// A value that is a length or a vertex number.
    fn whole(&mut self, kind: Scalar) -> Result<usize, String> {
        let value = self.value(kind)?;
        if value < 0.0 || value > f64::from(u32::MAX) || value.fract() != 0.0 || value.is_nan() {
            return self.fail(&format!("{value} is not a length or a vertex number"));
        }
        Ok(value as usize)
    }

    fn list(&mut self, length: Scalar, kind: Scalar) -> Result<Vec<usize>, String> {
        let mut list = vec![];
        for _ in 0..self.whole(length)? {
            list.push(self.whole(kind)?);
        }
        Ok(list)
    }

    /// Passes over a property.
    fn skip(&mut self, property: &Property) -> Result<(), String> {
        let count = property.length.map_or(Ok(1), |length| self.whole(length))?;
        for _ in 0..count {
            self.value(property.kind)?;
        }
        Ok(())
    }

    fn vertex(&mut self, element: &Element) -> Result<[f64; 3], String> {
        let mut point = [f64::NAN; 3];
        for property in &element.properties {
            match ["x", "y", "z"].iter().position(|name| *name == property.name) {
                Some(axis) if property.length.is_none() => point[axis] = self.value(property.kind)?,
                _ => self.skip(property)?,
            }
        }
        match finite(point) {
            true => Ok(point),
            false => self.fail("a coordinate is missing or not finite"),
        }
    }

    fn face(&mut self, element: &Element) -> Result<Vec<usize>, String> {
        let mut corners = None;
        for property in &element.properties {
            match (property.name.as_str(), property.length) {
                ("vertex_indices" | "vertex_index", Some(length)) => corners = Some(self.list(length, property.kind)?),
                _ => self.skip(property)?,
            }
        }
        corners.ok_or("the faces have no list 'vertex_indices' or 'vertex_index'".into())
    }

    /// Reads one of an element.
    fn read(&mut self, element: &Element, model: &mut Model) -> Result<(), String> {
        let start = self.at;
        match element.name.as_str() {
            "vertex" => model.points.push(self.vertex(element)?),
            "face" => {
                let corners = self.face(element)?;
                model.add_face(&corners, if self.encoding == Encoding::Text { self.words.line } else { start });
            }
            _ => element.properties.iter().try_for_each(|p| self.skip(p))?,
        }
        Ok(())
    }
}

pub fn read(bytes: &[u8]) -> Result<Model, String> {
    let mut words = Words::new(bytes, false);
    let (encoding, elements) = header(&mut words)?;
    if !elements.iter().any(|e| e.name == "face") {
        return Err("the header has no element 'face'".into());
    }
    let mut model = Model::new(if encoding == Encoding::Text { By::Line } else { By::Byte }, Some(0));
    let mut values = Values { at: words.at(), words, bytes, encoding };
    for element in elements.iter().filter(|e| !e.properties.is_empty()) {
        for _ in 0..element.count {
            values.read(element, &mut model)?;
        }
    }
    model.rest = match encoding {
        Encoding::Text => values.words.next().map(|_| values.words.line),
        _ => Some(values.at).filter(|&end| end < bytes.len()),
    };
    model.whole()
}

pub fn text(solid: &Solid) -> Vec<u8> {
    let mut text = format!("ply\nformat ascii 1.0\nelement vertex {}\n", solid.points.len());
    text.push_str("property double x\nproperty double y\nproperty double z\n");
    text.push_str(&format!("element face {}\nproperty list uchar uint vertex_indices\nend_header\n", solid.triangles.len()));
    for point in &solid.points {
        push_row(&mut text, "", point);
    }
    for triangle in &solid.triangles {
        push_row(&mut text, "3 ", triangle);
    }
    text.into_bytes()
}
