//! The words of a text, with the line that each stands on.

use std::str::FromStr;

#[derive(Clone)]
pub struct Words<'a> {
    bytes: &'a [u8],
    at: usize,
    /// The line of the word that was taken last, counted from 1.
    pub line: usize,
    /// Whether `#` begins a comment.
    comments: bool,
}

impl<'a> Words<'a> {
    pub fn new(bytes: &'a [u8], comments: bool) -> Self {
        Words { bytes, at: 0, line: 1, comments }
    }

    /// Where the next byte stands that is not yet read.
    pub fn at(&self) -> usize {
        self.at
    }

    fn byte(&self, ahead: usize) -> Option<u8> {
        self.bytes.get(self.at + ahead).copied()
    }

    /// How many bytes the line end has that stands so far ahead: 0 where there is none. A `\r` alone ends a line too.
    fn line_end(&self, ahead: usize) -> usize {
        match (self.byte(ahead), self.byte(ahead + 1)) {
            (Some(b'\r'), Some(b'\n')) => 2,
            (Some(b'\r' | b'\n'), _) => 1,
            _ => 0,
        }
    }

    /// How many bytes a `\` at a line's end has, which joins the next line to it: 0 where there is none.
    fn join(&self) -> usize {
        match (self.byte(0), self.line_end(1)) {
            (Some(b'\\'), end) if end > 0 => 1 + end,
            _ => 0,
        }
    }

    /// Passes over the rest of the line, not over its end.
    pub fn skip_line(&mut self) {
        while self.at < self.bytes.len() && self.line_end(0) == 0 {
            self.at += 1;
        }
    }

    /// Passes over the line's end; false at the end of the text.
    pub fn next_line(&mut self) -> bool {
        self.skip_line();
        let end = self.line_end(0);
        self.at += end;
        let more = self.at < self.bytes.len();
        self.line += usize::from(more);
        more
    }

    fn skip_blanks(&mut self) {
        while let Some(byte) = self.byte(0) {
            if self.join() > 0 {
                self.at += self.join();
                self.line += 1;
            } else if self.comments && byte == b'#' {
                self.skip_line();
            } else if self.line_end(0) > 0 || !byte.is_ascii_whitespace() {
                return;
            } else {
                self.at += 1;
            }
        }
    }

    /// The next word on this line.
    pub fn on_line(&mut self) -> Option<&'a str> {
        self.skip_blanks();
        let start = self.at;
        while self.byte(0).is_some_and(|b| !b.is_ascii_whitespace() && !(self.comments && b == b'#')) && self.join() == 0 {
            self.at += 1;
        }
        let word = &self.bytes[start..self.at];
        (!word.is_empty()).then(|| std::str::from_utf8(word).unwrap_or("\u{fffd}"))
    }

    /// The next word, on this line or a later one.
    pub fn next(&mut self) -> Option<&'a str> {
        loop {
            if let Some(word) = self.on_line() {
                return Some(word);
            }
            if !self.next_line() {
                return None;
            }
        }
    }

    /// A failure at the word that was taken last.
    pub fn fail<T>(&self, why: impl std::fmt::Display) -> Result<T, String> {
        Err(format!("line {}: {why}", self.line))
    }

    fn end<T>(&self, what: &str) -> Result<T, String> {
        Err(format!("the file ends where {what} is expected, at line {}", self.line))
    }

    /// The next word, which must be this one, in capitals or not.
    pub fn expect(&mut self, word: &str) -> Result<(), String> {
        match self.next() {
            Some(found) if found.eq_ignore_ascii_case(word) => Ok(()),
            Some(found) => self.fail(format_args!("'{}' instead of '{word}'", shown(found))),
            None => self.end(&format!("'{word}'")),
        }
    }

    /// The next word as a number.
    pub fn number<T: FromStr>(&mut self, what: &str) -> Result<T, String> {
        match self.next() {
            Some(word) => self.parse(word, what),
            None => self.end(what),
        }
    }

    /// The next word on this line as a number.
    pub fn number_on_line<T: FromStr>(&mut self, what: &str) -> Result<T, String> {
        match self.on_line() {
            Some(word) => self.parse(word, what),
            None => self.fail(format_args!("the line ends where {what} is expected")),
        }
    }

    pub fn parse<T: FromStr>(&self, word: &str, what: &str) -> Result<T, String> {
        word.parse().or_else(|_| self.fail(format_args!("'{}' is not {what}", shown(word))))
    }

    /// The next three words, all on one line, as a point.
    pub fn point(&mut self) -> Result<[f64; 3], String> {
        let point = [self.number("a coordinate")?, self.number_on_line("a coordinate")?, self.number_on_line("a coordinate")?];
        match finite(point) {
            true => Ok(point),
            false => self.fail("a coordinate is not finite"),
        }
    }
}

pub fn finite(point: [f64; 3]) -> bool {
    point.iter().all(|c| c.is_finite())
}

/// A word for a message: its first characters.
pub fn shown(word: &str) -> String {
    word.chars().take(40).flat_map(char::escape_debug).collect()
}
