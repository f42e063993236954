//! Erases the proved sources into the tree of modules that the crate includes.

fn main() {
    erase::build(|_| ());
}
