//! The delivered calls by lines of the second program's protocol (reference/PROTOCOL.md).
//!
//! `calls` answers each line of standard input by a line, as `oracle calls02` would at the level that has landed; what belongs to
//! requests that have not landed is answered `not yet`. `calls compare COUNT SEED..` holds the answers to the second program's, on
//! lines made from COUNT of its generator for each seed, and on ours. `calls lines COUNT SEED` prints such lines.

mod against;
mod service;
mod words;

use service::Calls;
use std::io::{self, BufRead, Read, Write};
use words::Text;

/// A line has fewer bytes.
const LONGEST_LINE: u64 = 1 << 24;

/// The next line without its end, or what is wrong with it; none after the last. A line that is too long is passed over to its end.
fn next_line(input: &mut impl BufRead) -> io::Result<Option<Text>> {
    let mut bytes = Vec::new();
    input.by_ref().take(LONGEST_LINE).read_until(b'\n', &mut bytes)?;
    if bytes.is_empty() {
        return Ok(None);
    }
    if bytes.pop_if(|b| *b == b'\n').is_some() {
        bytes.pop_if(|b| *b == b'\r');
    } else if bytes.len() as u64 == LONGEST_LINE {
        input.skip_until(b'\n')?;
        return Ok(Some(Err("a line of 16777216 bytes or more")));
    }
    Ok(Some(String::from_utf8(bytes).map_err(|_| "no text")))
}

/// Each line of standard input answered, at once.
fn answer_lines() -> io::Result<()> {
    let (mut input, mut out) = (io::stdin().lock(), io::stdout().lock());
    let mut calls = Calls::default();
    while let Some(line) = next_line(&mut input)? {
        let answer = line.map_or_else(|e| format!("error {e}"), |line| calls.line(&line));
        writeln!(out, "{answer}")?;
        out.flush()?;
    }
    Ok(())
}

fn main() {
    let args: Vec<String> = std::env::args().skip(1).collect();
    let words: Vec<&str> = args.iter().map(String::as_str).collect();
    let numbers = |words: &[&str]| words.iter().map(|s| s.parse::<u64>().ok()).collect::<Option<Vec<u64>>>();
    let told = match (words.first().copied(), numbers(words.get(1..).unwrap_or(&[])).as_deref()) {
        (None, _) => answer_lines().map_err(|e| e.to_string()),
        (Some("compare"), Some([count, seeds @ ..])) if !seeds.is_empty() => against::compare(*count as usize, seeds),
        (Some("lines"), Some([count, seed])) => Ok(against::print_lines(*seed, *count as usize)),
        _ => Err("usage: calls [compare COUNT SEED..] [lines COUNT SEED]".into()),
    };
    if let Err(e) = told {
        eprintln!("{e}");
        std::process::exit(1);
    }
}
