//! What lang_ast's walk for the edges would cost, worked out before it is made.
//!
//! The walk goes through the Select of an inherit-from once for each inherited attribute, and so through its source as
//! often. On some legal sheets that doubles at every level. It also copies the list of active narrowings at every
//! branch and binding. Children have lower numbers than their parents, so both can be summed up from the lowest number
//! on.

use lang_ast::narrow::detect_conditional_fn;
use lang_ast::{BinOP, BindingValue, Bindings, BoolBinOp, Expr, ExprBinOp, ExprId, Module, NormalBinOp};
use rnix::ast::UnaryOpKind;

/// The most that a walk may cost in calls and copies together.
pub const EDGE_BUDGET: u64 = 2_000_000;

/// The cost of the walk for the edges. Sums stop at the largest number.
#[derive(Debug, Clone, Copy, PartialEq, Eq)]
pub struct EdgeCost {
    /// Calls, exactly: each visit of an expression, and each of a part of a condition that is analyzed.
    pub calls: u64,
    /// Narrowings copied, at most.
    pub copies: u64,
}

impl EdgeCost {
    pub fn total(self) -> u64 {
        self.calls.saturating_add(self.copies)
    }
}

pub fn of_edges(module: &Module) -> EdgeCost {
    let mut costs = Costs { module, walks: Vec::new(), analyses: Vec::new() };
    for (_, expr) in module.exprs() {
        let (walk, analysis) = (costs.walk(expr), costs.analysis(expr));
        costs.walks.push(walk);
        costs.analyses.push(analysis);
    }
    let Walk { calls, copies, .. } = costs.walk_of(module.entry_expr);
    EdgeCost { calls, copies }
}

/// What `traverse_expr` costs.
#[derive(Debug, Clone, Copy, Default)]
struct Walk {
    calls: u64,
    /// How often the list of active narrowings is copied.
    lists: u64,
    /// Narrowings copied if none is active at first.
    copies: u64,
}

impl Walk {
    fn plus(self, other: Walk) -> Walk {
        Walk {
            calls: self.calls.saturating_add(other.calls),
            lists: self.lists.saturating_add(other.lists),
            copies: self.copies.saturating_add(other.copies),
        }
    }

    /// The same after one more copy of the list.
    fn with_list(self) -> Walk {
        self.plus(Walk { lists: 1, ..Walk::default() })
    }

    /// The same with so many more narrowings in the list.
    fn under(self, narrowings: u64) -> Walk {
        self.plus(Walk { copies: self.lists.saturating_mul(narrowings), ..Walk::default() })
    }
}

/// What `analyze_condition` costs.
#[derive(Debug, Clone, Copy, Default)]
struct Analysis {
    calls: u64,
    /// The most narrowings that it finds for a branch.
    found: u64,
    copies: u64,
}

impl Analysis {
    fn as_walk(self) -> Walk {
        Walk { calls: self.calls, lists: 0, copies: self.copies }
    }
}

struct Costs<'a> {
    module: &'a Module,
    /// By expression number, as far as they are known.
    walks: Vec<Walk>,
    analyses: Vec<Analysis>,
}

impl Costs<'_> {
    fn walk_of(&self, expr: ExprId) -> Walk {
        self.walks[expr.into_raw().into_u32() as usize]
    }

    fn analysis_of(&self, expr: ExprId) -> Analysis {
        self.analyses[expr.into_raw().into_u32() as usize]
    }

    /// As `NameDependencies::traverse_expr_inner` goes.
    fn walk(&self, expr: &Expr) -> Walk {
        let one = Walk { calls: 1, ..Walk::default() };
        let below = match expr {
            &Expr::IfThenElse { cond, then_body, else_body } => self.guarded(cond, then_body).plus(self.branch(cond, else_body)),
            &Expr::Assert { cond, body } => self.guarded(cond, body),
            &Expr::Apply { fun, arg } => self.walk_of(fun).plus(self.argument(fun, arg)),
            Expr::LetIn { bindings, body } => self.bindings(bindings).plus(self.walk_of(*body)),
            Expr::AttrSet { bindings, is_rec: true } => self.bindings(bindings),
            other => {
                let mut sum = Walk::default();
                other.walk_child_exprs(|child| sum = sum.plus(self.walk_of(child)));
                sum
            }
        };
        one.plus(below)
    }

    /// A condition, its analysis and the branch where it holds.
    fn guarded(&self, cond: ExprId, body: ExprId) -> Walk {
        self.walk_of(cond).plus(self.analysis_of(cond).as_walk()).plus(self.branch(cond, body))
    }

    fn branch(&self, cond: ExprId, body: ExprId) -> Walk {
        self.walk_of(body).with_list().under(self.analysis_of(cond).found)
    }

    /// The argument of an application; under narrowings where the function is one like `optionalString` with its
    /// condition.
    fn argument(&self, fun: ExprId, arg: ExprId) -> Walk {
        match &self.module[fun] {
            &Expr::Apply { fun: inner, arg: cond } if detect_conditional_fn(self.module, inner).is_some() => {
                self.analysis_of(cond).as_walk().plus(self.branch(cond, arg))
            }
            _ => self.walk_of(arg),
        }
    }

    /// As `NameDependencies::traverse_bindings` goes: Selects are walked, the list of sources is not.
    fn bindings(&self, bindings: &Bindings) -> Walk {
        let mut sum = Walk::default();
        for &(_, value) in bindings.statics.iter() {
            let (BindingValue::Expr(e) | BindingValue::Inherit(e) | BindingValue::InheritFrom(e)) = value;
            sum = sum.plus(self.walk_of(e).with_list());
        }
        for &(key, value) in bindings.dynamics.iter() {
            sum = sum.plus(self.walk_of(key)).plus(self.walk_of(value));
        }
        sum
    }

    /// As `narrow::analyze_condition_inner` goes.
    fn analysis(&self, expr: &Expr) -> Analysis {
        let leaf = |found| Analysis { calls: 1, found, copies: 0 };
        match expr {
            Expr::BinOp { lhs, rhs, op: BinOP::Normal(NormalBinOp::Bool(BoolBinOp::And | BoolBinOp::Or)) } => {
                let (a, b) = (self.analysis_of(*lhs), self.analysis_of(*rhs));
                let found = a.found.saturating_add(b.found);
                Analysis {
                    calls: a.calls.saturating_add(b.calls).saturating_add(1),
                    found,
                    copies: a.copies.saturating_add(b.copies).saturating_add(found),
                }
            }
            Expr::UnaryOp { op: UnaryOpKind::Invert, expr } => {
                let inner = self.analysis_of(*expr);
                Analysis { calls: inner.calls.saturating_add(1), ..inner }
            }
            Expr::BinOp { op: BinOP::Normal(NormalBinOp::Expr(ExprBinOp::Equal | ExprBinOp::NotEqual)), .. } => leaf(1),
            Expr::HasAttr { .. } | Expr::Apply { .. } => leaf(1),
            _ => leaf(0),
        }
    }
}
