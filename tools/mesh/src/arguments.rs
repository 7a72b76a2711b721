//! The arguments of a command: options with a value, options without, and at most one file.

use std::collections::HashMap;
use std::ffi::{OsStr, OsString};

pub struct Arguments {
    values: HashMap<&'static str, OsString>,
    /// The file that is named; `-` is standard input.
    pub file: OsString,
}

impl Arguments {
    /// Reads what follows the command; none where it is wrong.
    pub fn read(words: &[OsString], with_value: &[&'static str], without: &[&'static str]) -> Option<Self> {
        let mut values = HashMap::new();
        let mut files = vec![];
        let mut rest = words.iter();
        while let Some(word) = rest.next() {
            if let Some(name) = with_value.iter().find(|name| word == **name) {
                values.insert(*name, rest.next()?.clone());
            } else if let Some(name) = without.iter().find(|name| word == **name) {
                values.insert(*name, OsString::new());
            } else if word != "-" && word.as_encoded_bytes().starts_with(b"-") {
                return None;
            } else {
                files.push(word.clone());
            }
        }
        let file = files.pop().unwrap_or("-".into());
        files.is_empty().then_some(Arguments { values, file })
    }

    pub fn value(&self, name: &str) -> Option<&OsStr> {
        self.values.get(name).map(OsString::as_os_str)
    }

    pub fn text(&self, name: &str) -> Option<String> {
        self.value(name).map(|value| value.to_string_lossy().into_owned())
    }

    pub fn has(&self, name: &str) -> bool {
        self.values.contains_key(name)
    }
}
