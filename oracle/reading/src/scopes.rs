//! Document 01, "Scopes and answers": which scope each walked expression lies in. "Walking an expression enters
//! bindings, and walking bindings enters expressions again": `Walk::expr` and `Walk::bindings` are the two walkers.

use canon::{BindingValue, Bindings, Expr, ExprId, Module, NameId, Part, Pat, Scope, ScopeId, ScopeKind, Scopes};

/// "Scopes are numbered from 0, the root": it holds no name and has no parent.
pub(crate) fn walk(module: &Module) -> Scopes {
    let root = Scope { parent: None, kind: ScopeKind::Definitions(Vec::new()) };
    let mut walk = Walk { exprs: &module.exprs, scopes: vec![root], of_expr: vec![None; module.exprs.len()] };
    walk.expr(module.entry, 0);
    Scopes { scopes: walk.scopes, of_expr: walk.of_expr }
}

struct Walk<'a> {
    exprs: &'a [Expr],
    scopes: Vec<Scope>,
    /// "Unwalked expressions have no scope."
    of_expr: Vec<Option<ScopeId>>,
}

impl<'a> Walk<'a> {
    fn expr(&mut self, number: ExprId, scope: ScopeId) {
        self.of_expr[number as usize] = Some(scope);
        let exprs = self.exprs;
        match &exprs[number as usize] {
            Expr::Lambda { param, pat, body } => self.lambda(*param, pat.as_ref(), *body, scope),
            Expr::LetIn { bindings, body } => {
                let inside = self.bindings(bindings, true, scope);
                self.expr(*body, inside);
            }
            Expr::AttrSet { is_rec, bindings } => {
                self.bindings(bindings, *is_rec, scope);
            }
            // "With always, for its body": the namespace is walked outside.
            // OPEN: that it is walked before the scope is made, which the numbers of scopes show. It is written first.
            Expr::With { env, body } => {
                self.expr(*env, scope);
                let inside = self.open(scope, ScopeKind::With(number));
                self.expr(*body, inside);
            }
            // "an Assert's body is walked before its condition".
            Expr::Assert { cond, body } => self.each(&[*body, *cond], scope),
            other => self.each(&children(other), scope),
        }
    }

    fn each(&mut self, list: &[ExprId], scope: ScopeId) {
        for &child in list {
            self.expr(child, scope);
        }
    }

    /// "Lambda (parameter, then fields) ... open a scope if they have a name." Defaults and body lie inside.
    ///
    /// OPEN: whether the defaults or the body are walked first, which the numbers of scopes show. The defaults, as they
    /// are written first.
    fn lambda(&mut self, param: Option<NameId>, pat: Option<&'a Pat>, body: ExprId, scope: ScopeId) {
        let fields = pat.map_or(&[][..], |pat| &pat.fields);
        let names = param.into_iter().chain(fields.iter().filter_map(|(name, _)| *name)).collect();
        let inside = self.open_for(scope, names);
        for default in fields.iter().filter_map(|(_, default)| *default) {
            self.expr(default, inside);
        }
        self.expr(body, inside);
    }

    /// Walks the bindings of a let or a set and gives the scope inside. `opens`: a let or a rec set; "A plain set opens
    /// none."
    ///
    /// Order of walking (D13): plain inherits outside, the scope, values in key order, sources, dynamics (key, value).
    fn bindings(&mut self, bindings: &'a Bindings, opens: bool, scope: ScopeId) -> ScopeId {
        for (_, value) in &bindings.statics {
            // "Plain inherit walks outside": the name inherited is that of the scope around.
            if let BindingValue::Inherit(reference) = value {
                self.expr(*reference, scope);
            }
        }
        // The statics stand in key order, and so their names are entered.
        let names = if opens { bindings.statics.iter().map(|(name, _)| *name).collect() } else { Vec::new() };
        let inside = self.open_for(scope, names);
        for (_, value) in &bindings.statics {
            // "An InheritFrom Select is not walked", and so its key literal is not; its source is, once, below.
            if let BindingValue::Expr(value) = value {
                self.expr(*value, inside);
            }
        }
        // "inherit-from sources inside".
        self.each(&bindings.inherit_froms, inside);
        for &(key, value) in &bindings.dynamics {
            self.each(&[key, value], inside);
        }
        inside
    }

    /// A scope that holds these names, or the scope around where there are none.
    fn open_for(&mut self, scope: ScopeId, names: Vec<NameId>) -> ScopeId {
        if names.is_empty() {
            return scope;
        }
        self.open(scope, ScopeKind::Definitions(names))
    }

    fn open(&mut self, parent: ScopeId, kind: ScopeKind) -> ScopeId {
        self.scopes.push(Scope { parent: Some(parent), kind });
        (self.scopes.len() - 1) as ScopeId
    }
}

/// The children of an expression that opens nothing, in the order of its fields. Those that have a rule of their own
/// give none here.
fn children(expr: &Expr) -> Vec<ExprId> {
    match expr {
        Expr::Missing | Expr::Literal(_) | Expr::Reference(_) => Vec::new(),
        Expr::Lambda { .. } | Expr::LetIn { .. } | Expr::AttrSet { .. } | Expr::With { .. } | Expr::Assert { .. } => Vec::new(),
        Expr::Apply { fun, arg } => vec![*fun, *arg],
        Expr::IfThenElse { cond, then_body, else_body } => vec![*cond, *then_body, *else_body],
        Expr::List(items) => items.clone(),
        Expr::BinOp { lhs, rhs, .. } => vec![*lhs, *rhs],
        Expr::UnaryOp { expr, .. } => vec![*expr],
        Expr::Select { set, attrpath, default_expr } => {
            let default = default_expr.iter().copied();
            std::iter::once(*set).chain(attrpath.iter().copied()).chain(default).collect()
        }
        Expr::HasAttr { set, attrpath } => std::iter::once(*set).chain(attrpath.iter().copied()).collect(),
        Expr::StringInterpolation(parts) | Expr::PathInterpolation(parts) => interpolated(parts),
    }
}

fn interpolated(parts: &[Part]) -> Vec<ExprId> {
    let expr = |part: &Part| match part {
        Part::Literal(_) => None,
        Part::Interpol(expr) => Some(*expr),
    };
    parts.iter().filter_map(expr).collect()
}
