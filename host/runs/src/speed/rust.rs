//! What the Rust does for a load, and for an edit.

use lang_ast::{classify, compute_name_resolution, Module, ModuleScopes, NameResolution};
use sheet::check::check;

/// All from a sheet's bytes: its nodes, the module, its source map, scopes and answers.
pub fn from_bytes(bytes: &[u8]) -> impl Sized {
    check(bytes).map(|nodes| loaded(rnix::Root::of_nodes(&nodes)))
}

/// All of a tree: the module, its source map, scopes and answers.
pub fn loaded(tree: rnix::Root) -> impl Sized {
    let (module, map) = classify::lower(tree);
    (resolved(&module), module, map)
}

/// Scopes and answers of a module.
pub fn resolved(module: &Module) -> (ModuleScopes, NameResolution) {
    let scopes = ModuleScopes::new(module);
    let answers = compute_name_resolution(module, &scopes);
    (scopes, answers)
}
