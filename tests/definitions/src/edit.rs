//! Applies a must-fail edit to a crate's folder.

use std::fs;
use std::path::Path;

/// The edit's `file:` in the folder, each `old:` in turn replaced by the `new:` after it.
pub fn apply(edit: &str, folder: &str) -> Result<(), String> {
    let text = fs::read_to_string(edit).map_err(|e| format!("{edit}: {e}"))?;
    let word = |name: &'static str| text.lines().filter_map(move |l| l.strip_prefix(name));
    let path = Path::new(folder).join(word("file: ").next().ok_or("no file: line")?);
    let mut content = fs::read_to_string(&path).map_err(|e| format!("{}: {e}", path.display()))?;
    for (old, new) in word("old: ").zip(word("new: ")) {
        if content.matches(old).count() != 1 {
            return Err(format!("{edit}: not once in {}: {old}", path.display()));
        }
        content = content.replacen(old, new, 1);
    }
    fs::write(&path, content).map_err(|e| e.to_string())
}
