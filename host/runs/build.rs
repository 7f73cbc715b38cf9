//! Links the archive; with the feature `stand-in` none. How it is found or made is the library's to know, in a file
//! that both build scripts have as a module: the runs do not depend on the library, so that they can be built without
//! an archive.

#[path = "../lang-ast/build/archive.rs"]
mod archive;

fn main() {
    if std::env::var_os("CARGO_FEATURE_STAND_IN").is_none() {
        archive::link();
    }
}
