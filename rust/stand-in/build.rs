//! Erases the kit's case tables, which stand below `casing` in the tree of modules.

fn main() {
    erase::build(|crates| crates.retain(|one| one.name == "stand_in/casing"));
}
