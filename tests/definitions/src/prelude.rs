//! The lines that every module of rows begins with, and the definitions that its theorems compute.

use crate::lines;
use std::fs;
use std::path::PathBuf;

/// The specs and the proofs of the rules.
const SPECS: &str = "Rattle.rules.specs";
const PROOFS: &str = "Rattle.rules.proofs";

fn rules() -> PathBuf {
    PathBuf::from(env!("CARGO_MANIFEST_DIR")).join("../../crates/rules")
}

/// The `unfoldable` names of a file.
fn unfoldable(folder: &str, module: &str) -> Vec<String> {
    let text = fs::read_to_string(rules().join(folder).join(module.to_owned() + ".antt")).expect("a file of the rules");
    text.lines().filter_map(|l| l.strip_prefix("unfoldable pub ")).map(|l| l.split(' ').next().unwrap().to_owned()).collect()
}

/// The files of specs/, in the order of its Lib.antt.
fn modules() -> Vec<String> {
    let text = fs::read_to_string(rules().join("specs/Lib.antt")).expect("the rules' specs/Lib.antt");
    text.lines().filter_map(|l| l.strip_prefix("pub mod ")).map(str::to_owned).collect()
}

/// The `use` lines, and the line that opens the definitions and these rows under a theorem.
pub fn prelude(rows: &[&str]) -> (String, String) {
    let mut uses = format!(
        "use mathlib.Core.Bool.{{true, false, ◌&&◌}}
use mathlib.Core.List.{{List, [], ◌∷◌, ◌++◌}}
use lib.ListN.{{replicate}}
use lib.Dec.{{T}}
use lib.IntN.{{pos, negsuc}}
use {SPECS}.declared.Operation.TheVariants.{{New, Forward, Backward, Border, Split, Close, Union, Start}}
use {SPECS}.Melted.{{Six, Refused}}
use {SPECS}.Triangle.{{tri}}
use {SPECS}.Answer.{{refusal, accepted, triangle, no_triangle, numbers, packed}}
use {SPECS}.Book.{{begin, operate, finish}}
use {SPECS}.Pack.{{most}}
use {SPECS}.Later.{{not_given, given}}
use {PROOFS}.Rows.{{PackRow, UnpackRow, CallRow, FieldsRow, LookRow, WholePackRow, WholeRow, MeltRow}}
use {PROOFS}.Rows.{{place, pack_lent, unpack_lent, unpack_told, volume_told, lengths, counts, totals_of, model_of}}
"
    );
    let mut names = unfoldable("proofs", "Rows");
    uses += &lines::uses(&format!("{PROOFS}.Rows"), &names);
    for m in modules() {
        let found = unfoldable("specs", &m);
        if !found.is_empty() {
            uses += &lines::uses(&format!("{SPECS}.{m}"), &found);
            names.extend(found);
        }
    }
    names.extend(rows.iter().map(|r| r.to_string()));
    (uses, lines::broken(&format!("unfolding {}", names.join(" ")), &[lines::AT_WORD], 4))
}
