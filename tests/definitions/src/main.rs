//! Rows for the prover: calls with what the second program answers and leaves in the buffers.
//!
//!     definitions table                 the table of the rules, crates/rules/proofs/Models.antt
//!     definitions cases SEED COUNT      a module of random cases, each a theorem of its own
//!     definitions edit FILE FOLDER      applies a must-fail edit to a crate's folder
//!
//! Every expected value comes from the second program.

mod antt;
mod cases;
mod edit;
// tests/compare asks for more of it.
#[allow(dead_code)]
#[path = "../../expected.rs"]
mod expected;
mod furnace;
mod lines;
mod notes;
mod positions;
mod prelude;
mod second;
mod table;

fn main() {
    let args: Vec<String> = std::env::args().skip(1).collect();
    let words: Vec<&str> = args.iter().map(String::as_str).collect();
    match words.as_slice() {
        ["table"] => print!("{}", table::module()),
        ["cases", seed, count] => match (seed.parse(), count.parse()) {
            (Ok(seed), Ok(count)) => print!("{}", cases::module(seed, count)),
            _ => usage(),
        },
        ["edit", file, folder] => {
            if let Err(e) = edit::apply(file, folder) {
                eprintln!("{e}");
                std::process::exit(1);
            }
        }
        _ => usage(),
    }
}

fn usage() {
    eprintln!("usage: definitions table\n       definitions cases SEED COUNT\n       definitions edit FILE FOLDER");
    std::process::exit(2);
}
