//! For each refusal but 10 the smallest input, found by trying all smaller ones, a line each: its number, a space, and the input as
//! docs/FORMAT.md writes it. The answers are the second program's.

#[allow(dead_code)]
#[path = "../../expected.rs"]
mod expected;
mod lists;
mod packs;
mod places;

fn main() {
    let model = lists::print();
    lists::print_short(&model);
    packs::print();
    places::print();
}
