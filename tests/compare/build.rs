//! Links the static libraries that `tools/build` writes of `capi`, `search` and `furnace`.

fn main() {
    let top = concat!(env!("CARGO_MANIFEST_DIR"), "/../../target/staticlib");
    println!("cargo:rustc-link-search=native={top}");
    for library in ["capi", "search", "furnace"] {
        println!("cargo:rustc-link-lib=static={library}");
        println!("cargo:rerun-if-changed={top}/lib{library}.a");
    }
}
