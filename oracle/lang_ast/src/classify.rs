//! Stands where lang_ast has a module that is not at hand and of which the other files use nothing. It is the door through which the
//! adapter reaches what is private to this crate: lowering, the texts of a module and both sides of its source map.

use rustc_hash::FxHashMap as HashMap;
use smol_str::SmolStr;

use crate::{comment::DocCommentCtx, AstPtr, Expr, ExprId, Module, ModuleSourceMap, NameId};

/// `lower` with an empty `DocCommentCtx`.
pub fn lower(root: rnix::Root) -> (Module, ModuleSourceMap) {
    crate::lower::lower(root, DocCommentCtx::default())
}

/// The pointer-to-number side of the source map, of expressions.
pub fn exprs_by_pointer(source_map: &ModuleSourceMap) -> &HashMap<AstPtr, ExprId> {
    &source_map.expr_map
}

/// The pointer-to-number side of the source map, of names.
pub fn names_by_pointer(source_map: &ModuleSourceMap) -> &HashMap<AstPtr, NameId> {
    &source_map.name_map
}

/// Sets the text of a name; panics if the module has no such name.
pub fn set_name(module: &mut Module, name: NameId, text: SmolStr) {
    module.names[name].text = text;
}

/// Sets the text of a Reference; panics if the module has no such expression, or it is no Reference.
pub fn set_reference(module: &mut Module, expr: ExprId, text: SmolStr) {
    match &mut module.exprs[expr] {
        Expr::Reference(old) => *old = text,
        other => panic!("expression {expr:?} is no Reference but {other:?}"),
    }
}
