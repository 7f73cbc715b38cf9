//! Links the archive with the five calls.

#[path = "build/archive.rs"]
mod archive;

fn main() {
    archive::link();
}
