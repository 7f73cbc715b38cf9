//! The original Rust of lang_ast as a reading of the rules: lowering, scopes and answers over a sheet's nodes, put into
//! canonical form.

mod convert;
mod cost;

pub use cost::{EdgeCost, EDGE_BUDGET};

use canon::{ExprId, Facts, NameId, Reading, Resolution};
use lang_ast::{classify, compute_group_def, compute_module_indices, compute_name_resolution};
use lang_ast::{Module, ModuleScopes, ModuleSourceMap, NameResolution};

/// The stack that `with_big_stack` sets aside; only what is used of it becomes memory.
const BIG_STACK: usize = 512 << 20;

/// Runs `f` on a thread with a stack that is big enough for the deepest sheet, as all of lang_ast calls itself along a
/// tree.
pub fn with_big_stack<T: Send>(f: impl FnOnce() -> T + Send) -> T {
    std::thread::scope(|scope| {
        let thread = std::thread::Builder::new().stack_size(BIG_STACK).spawn_scoped(scope, f);
        let outcome = thread.expect("a thread can be started").join();
        outcome.unwrap_or_else(|panic| std::panic::resume_unwind(panic))
    })
}

/// A sheet as lang_ast lowers it, with texts that can be set. A deep sheet wants a thread of `with_big_stack` around
/// every call.
#[derive(Debug, Clone)]
pub struct Tix {
    module: Module,
    source_map: ModuleSourceMap,
}

impl Tix {
    /// Lowers the nodes of an accepted sheet, with no doc comments. Of other lists of nodes nothing is promised.
    pub fn new(nodes: &[sheet::Node]) -> Tix {
        let (module, source_map) = classify::lower(rnix::Root::of_nodes(nodes));
        Tix { module, source_map }
    }

    /// What lowering alone makes, with the texts as they now read.
    pub fn module(&self) -> canon::Module {
        convert::module(&self.module, &self.source_map)
    }

    /// The scopes and the answers for the texts as they now read.
    fn resolve(&self) -> (ModuleScopes, NameResolution) {
        let scopes = ModuleScopes::new(&self.module);
        let answers = compute_name_resolution(&self.module, &scopes);
        (scopes, answers)
    }

    /// What `edges` would cost, worked out without walking.
    pub fn edge_cost(&self) -> EdgeCost {
        cost::of_edges(&self.module)
    }

    /// The edges of `NameDependencies::new` for the texts as they now read: pairs of binding and definition, ascending,
    /// each once. An error where the walk would cost more than `EDGE_BUDGET`.
    pub fn edges(&self) -> Result<Vec<(NameId, NameId)>, String> {
        let cost = self.edge_cost();
        if cost.total() > EDGE_BUDGET {
            return Err(format!("the walk would take {} calls and {} copies, over the budget of {EDGE_BUDGET}", cost.calls, cost.copies));
        }
        let (_, answers) = self.resolve();
        compute_group_def(&self.module, &answers, &compute_module_indices(&self.module));
        // The graph has a node for each name, by its number, and first of all an edge from each to itself.
        let added = petgraph::record::take_edges();
        let walked = added.iter().skip(self.module.names().len());
        let mut pairs: Vec<(NameId, NameId)> = walked.map(|&(from, to)| (from as NameId, to as NameId)).collect();
        pairs.sort_unstable();
        pairs.dedup();
        Ok(pairs)
    }
}

impl Reading for Tix {
    /// Everything as it now reads: as loaded until a text is set, and afterwards with the texts and answers that
    /// follow.
    fn facts(&self) -> Facts {
        let (scopes, answers) = self.resolve();
        Facts {
            module: self.module(),
            scopes: convert::scopes(&self.module, &scopes),
            resolution: convert::resolution(&self.module, &answers),
        }
    }

    /// Panics if there is no such name.
    fn set_name(&mut self, name: NameId, text: &[u8]) {
        classify::set_name(&mut self.module, convert::index(name), convert::text(text));
    }

    /// Panics if there is no such expression, or it is no Reference.
    fn set_reference(&mut self, expr: ExprId, text: &[u8]) {
        classify::set_reference(&mut self.module, convert::index(expr), convert::text(text));
    }

    fn resolution(&self) -> Resolution {
        let (_, answers) = self.resolve();
        convert::resolution(&self.module, &answers)
    }
}
