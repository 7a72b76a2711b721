//! Lines that fit a screen, laid out as `rt fmt` leaves them.

/// The most characters of a line.
const WIDE: usize = 140;

/// Whether a line may be broken before a word, by the word and by how many parentheses are open there.
pub type Break = fn(&str, usize) -> bool;

pub const AT_WORD: Break = |_, _| true;
pub const AT_OPERATOR: Break = |word, _| is_operator(word);
const AT_OUTER_OPERATOR: Break = |word, open| open == 0 && is_operator(word);
const AT_ARGUMENT: Break = |word, open| open == 0 && word.starts_with('(');

fn is_operator(word: &str) -> bool {
    ["∷", "++", "&&"].contains(&word)
}

fn width(text: &str) -> usize {
    text.chars().count()
}

/// What stands between the places where a text may be broken.
fn pieces(text: &str, may: Break) -> Vec<String> {
    let mut out: Vec<String> = Vec::new();
    let mut open = 0;
    for word in text.split(' ') {
        match out.last_mut() {
            Some(piece) if !may(word, open) => *piece += &format!(" {word}"),
            _ => out.push(word.to_owned()),
        }
        open = open + word.matches('(').count() - word.matches(')').count();
    }
    out
}

/// A text in lines that fit, all but the first after so many spaces; what is too long by one break is tried with the next.
pub fn broken(text: &str, breaks: &[Break], indent: usize) -> String {
    let Some((may, others)) = breaks.split_first().filter(|_| width(text) > WIDE) else {
        return text.to_owned();
    };
    let mut lines: Vec<String> = Vec::new();
    for piece in pieces(text, *may) {
        match lines.last_mut() {
            None => lines.push(piece),
            Some(line) if width(line) + 1 + width(&piece) <= WIDE => *line += &format!(" {piece}"),
            Some(_) => lines.push(" ".repeat(indent) + &piece),
        }
    }
    lines.iter().map(|line| broken(line, others, indent)).collect::<Vec<_>>().join("\n")
}

/// The names that are used of a file, in as many lines as they need.
pub fn uses(file: &str, names: &[String]) -> String {
    let mut lines: Vec<String> = Vec::new();
    for name in names {
        match lines.last_mut() {
            Some(line) if width(line) + 3 + width(name) <= WIDE => *line += &format!(", {name}"),
            _ => lines.push(format!("use {file}.{{{name}")),
        }
    }
    lines.iter().map(|line| format!("{line}}}\n")).collect()
}

/// A record after four spaces: in one line, or a field to a line.
pub fn record(fields: &[(&str, String)]) -> String {
    let assigned: Vec<String> = fields.iter().map(|(name, value)| format!("{name} = {value}")).collect();
    let line = format!("record {{ {} }}", assigned.join("; "));
    if width(&line) + 4 <= WIDE {
        return line;
    }
    let in_lines = |field: &String| broken(&format!("      {field};"), &[AT_OUTER_OPERATOR, AT_ARGUMENT, AT_OPERATOR], 10) + "\n";
    format!("record {{\n{}    }}", assigned.iter().map(in_lines).collect::<String>())
}
