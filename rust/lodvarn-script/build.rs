//! Erases the proved sources into the tree of modules that the library includes, the programs and the tests with them.

fn main() {
    erase::build(|crates| crates.extend(erase::programs()));
}
