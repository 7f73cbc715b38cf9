//! What a store holds, read from its bytes by docs/STORE.md, without a call.
//!
//! Nothing here checks the store, and nothing here panics: of a store that the calls refuse, a reader gives what can be
//! read of it, and none where a number is not one that the page lets be there.

use crate::answer::{Answer, Builtin};
use crate::expr::{Expr, Row, HOLE};
use crate::ids::{ExprId, NameId, ScopeId};
use crate::layout::{self, header};
use crate::page::{below, one_less, Page, Pointer};
use crate::store::Store;

/// A name: something that is defined, or an attribute of a set.
#[derive(Clone, Copy, PartialEq, Eq, Hash)]
pub struct Name<'a> {
    /// How it is written now.
    pub text: &'a [u8],
    /// What defines it.
    pub kind: NameKind,
    /// The node that defines it.
    pub pointer: Pointer,
}

/// What defines a name.
#[derive(Debug, Clone, Copy, PartialEq, Eq, PartialOrd, Ord, Hash)]
pub enum NameKind {
    /// A let.
    LetIn,
    /// A set that is not rec. No Reference means such a name.
    PlainAttrset,
    /// A set that is rec.
    RecAttrset,
    /// The parameter of a function.
    Param,
    /// A field of a function's pattern.
    PatField,
}

impl NameKind {
    fn from_number(number: u32) -> Option<Self> {
        Some(match number {
            0 => NameKind::LetIn,
            1 => NameKind::PlainAttrset,
            2 => NameKind::RecAttrset,
            3 => NameKind::Param,
            4 => NameKind::PatField,
            _ => return None,
        })
    }

    /// Whether a Reference can mean a name of this kind: all but those of plain sets.
    pub const fn is_definition(self) -> bool {
        !matches!(self, NameKind::PlainAttrset)
    }
}

/// A key that a set or a let has twice.
#[derive(Clone, Copy, PartialEq, Eq, Hash)]
pub struct DuplicateKey<'a> {
    /// The key as loaded.
    pub key: &'a [u8],
    /// The node of the name that has it.
    pub first: Pointer,
    /// The node that has it again.
    pub second: Pointer,
}

/// A scope: what an expression finds names in.
#[derive(Debug, Clone, PartialEq, Eq)]
pub struct Scope {
    /// The scope around it, whose number is lower; none for scope 0.
    pub parent: Option<ScopeId>,
    /// What is found in it.
    pub kind: ScopeKind,
}

/// What is found in a scope.
#[derive(Debug, Clone, PartialEq, Eq)]
pub enum ScopeKind {
    /// These names, in the order in which they were entered: of equal texts the last is meant.
    Definitions(Vec<NameId>),
    /// The attributes of this With's namespace.
    WithExpr(ExprId),
}

/// The one whose pointer is the shortest that holds the offset; of equally short ones the last.
fn innermost<Id>(offset: u32, pointers: impl DoubleEndedIterator<Item = (Id, Pointer)>) -> Option<Id> {
    let around = pointers.rev().filter(|(_, pointer)| pointer.holds(offset));
    around.min_by_key(|(_, pointer)| pointer.to - pointer.from).map(|(id, _)| id)
}

impl Store {
    fn page(&self) -> Page<'_> {
        Page::new(self.as_bytes())
    }

    /// How many expressions there are.
    pub fn expr_count(&self) -> u32 {
        self.page().exprs()
    }

    /// How many names there are.
    pub fn name_count(&self) -> u32 {
        self.page().names()
    }

    /// How many scopes there are.
    pub fn scope_count(&self) -> u32 {
        self.page().scopes()
    }

    /// All expressions, by their numbers.
    pub fn exprs(&self) -> impl DoubleEndedIterator<Item = ExprId> {
        (0..self.expr_count()).map(ExprId)
    }

    /// All names, by their numbers.
    pub fn names(&self) -> impl DoubleEndedIterator<Item = NameId> {
        (0..self.name_count()).map(NameId)
    }

    /// All scopes, by their numbers.
    pub fn scopes(&self) -> impl DoubleEndedIterator<Item = ScopeId> {
        (0..self.scope_count()).map(ScopeId)
    }

    /// All References with their texts, by their numbers.
    ///
    /// ```
    /// # let store = lang_ast::Store::load(&std::fs::read("../../examples/lambda.sheet")?)?;
    /// let all: Vec<_> = store.references().collect();
    /// assert_eq!(all, [(lang_ast::ExprId(0), b"x".as_slice())]);
    /// # Ok::<(), Box<dyn std::error::Error>>(())
    /// ```
    pub fn references(&self) -> impl DoubleEndedIterator<Item = (ExprId, &[u8])> {
        self.exprs().filter_map(|expr| Some((expr, self.reference_text(expr)?)))
    }

    /// The text of a Reference; none where the expression is none.
    pub fn reference_text(&self, expr: ExprId) -> Option<&[u8]> {
        Row::of(self.page(), expr)?.reference()
    }

    /// The expression that the whole file is.
    pub fn entry(&self) -> Option<ExprId> {
        below(self.page().word(header::ENTRY)?, self.expr_count()).map(ExprId)
    }

    /// An expression.
    ///
    /// ```
    /// # let store = lang_ast::Store::load(&std::fs::read("../../examples/lambda.sheet")?)?;
    /// use lang_ast::{Expr, ExprId, NameId};
    /// let lambda = Expr::Lambda { param: Some(NameId(0)), pat: None, body: ExprId(0) };
    /// assert_eq!(store.expr(ExprId(1)), Some(lambda));
    /// assert_eq!(store.expr(ExprId(0)), Some(Expr::Reference(b"x")));
    /// assert_eq!(store.expr(ExprId(2)), None);
    /// # Ok::<(), Box<dyn std::error::Error>>(())
    /// ```
    pub fn expr(&self, expr: ExprId) -> Option<Expr<'_>> {
        Row::of(self.page(), expr)?.expr()
    }

    /// The node of an expression; none for a Missing that stands for a node that is not there.
    pub fn expr_pointer(&self, expr: ExprId) -> Option<Pointer> {
        let sort = Row::of(self.page(), expr)?.sort()?;
        if sort == HOLE {
            return None;
        }
        self.page().pointer(layout::EXPR_POINTERS, expr.0, 0)
    }

    /// The expression of a node. Of several with the same pointer it is the one with the highest number: the last that
    /// was written into the map of the original Rust, the crate lang_ast of JRMurr/tix, whose results these are.
    ///
    /// Not every node has an expression, and not every Ident is a use:
    ///
    /// - A Root and a Paren have no expression of their own: look for what is inside.
    /// - The Idents of a Select's path are Strings ([`Literal::String`](crate::Literal::String)), and so are those of a
    ///   HasAttr's.
    /// - The Ident of a key has a name ([`Store::name_at`]), and a set too where its path goes on: the `a` of
    ///   `{ a.b = 1; }`. In `{ a.b = 1; a.c = 2; }` the first `a` has both, and the second has neither.
    /// - The Ident of a plain `inherit` has a name and a Reference; that of an `inherit (source)` a name and a Select.
    ///
    /// So an Ident is a use only if [`Store::reference_text`] of its expression is `Some`. Where only a place in the
    /// text is known, [`Store::reference_at`] finds the use. docs/STORE.md has a table of all this under Pointers.
    ///
    /// ```
    /// # let store = lang_ast::Store::load(&std::fs::read("../../examples/lambda.sheet")?)?;
    /// use lang_ast::{ExprId, Kind};
    /// // The body of `x: x`, and its parameter, which has a name and no expression.
    /// assert_eq!(store.expr_at(Kind::ident("x").pointer(3, 4)), Some(ExprId(0)));
    /// assert_eq!(store.expr_at(Kind::ident("x").pointer(0, 1)), None);
    /// # Ok::<(), Box<dyn std::error::Error>>(())
    /// ```
    pub fn expr_at(&self, pointer: Pointer) -> Option<ExprId> {
        self.exprs().rev().find(|&expr| self.expr_pointer(expr) == Some(pointer))
    }

    /// The use at a place of the source text, such as a cursor's: the innermost Reference whose node holds the place,
    /// which then lies at the node's beginning or behind it, and before its end. Innermost is the shortest; of equally
    /// short ones it is the one with the highest number.
    ///
    /// ```
    /// # let store = lang_ast::Store::load(&std::fs::read("../../examples/lambda.sheet")?)?;
    /// use lang_ast::ExprId;
    /// // `x: x`, in which the second x is a use and the first is none.
    /// assert_eq!([0, 3, 4].map(|offset| store.reference_at(offset)), [None, Some(ExprId(0)), None]);
    /// # Ok::<(), Box<dyn std::error::Error>>(())
    /// ```
    pub fn reference_at(&self, offset: u32) -> Option<ExprId> {
        innermost(offset, self.references().filter_map(|(expr, _)| Some((expr, self.expr_pointer(expr)?))))
    }

    /// A name.
    pub fn name(&self, name: NameId) -> Option<Name<'_>> {
        let (page, row) = (self.page(), below(name.0, self.name_count())?);
        let text = page.text(page.field(layout::NAMES, row, 0)?);
        let kind = NameKind::from_number(page.field(layout::NAMES, row, 1)?)?;
        Some(Name { text, kind, pointer: self.name_pointer(name)? })
    }

    fn name_pointer(&self, name: NameId) -> Option<Pointer> {
        self.page().pointer(layout::NAME_POINTERS, name.0, 0)
    }

    /// The name of a node. Of several with the same pointer it is the one with the highest number, as in
    /// [`Store::expr_at`].
    ///
    /// A name has the pointer of the Ident of a parameter, of a pattern's `x@` or of its field; or, in a set or a let,
    /// of the attribute that first brings its key: an Ident, a Str or a Dynamic.
    ///
    /// ```
    /// # let store = lang_ast::Store::load(&std::fs::read("../../examples/lambda.sheet")?)?;
    /// use lang_ast::{Kind, NameId};
    /// assert_eq!(store.name_at(Kind::ident("x").pointer(0, 1)), Some(NameId(0)));
    /// # Ok::<(), Box<dyn std::error::Error>>(())
    /// ```
    pub fn name_at(&self, pointer: Pointer) -> Option<NameId> {
        self.names().rev().find(|&name| self.name_pointer(name) == Some(pointer))
    }

    /// The name that is defined at a place of the source text, such as a cursor's: the innermost name whose node holds
    /// the place, as [`Store::reference_at`] has it for a use. In a plain `inherit` there are both.
    ///
    /// ```
    /// # let store = lang_ast::Store::load(&std::fs::read("../../examples/lambda.sheet")?)?;
    /// use lang_ast::NameId;
    /// // `x: x`
    /// assert_eq!([0, 1, 3].map(|offset| store.name_around(offset)), [Some(NameId(0)), None, None]);
    /// # Ok::<(), Box<dyn std::error::Error>>(())
    /// ```
    pub fn name_around(&self, offset: u32) -> Option<NameId> {
        innermost(offset, self.names().filter_map(|name| Some((name, self.name_pointer(name)?))))
    }

    /// The keys that a set or a let has twice, as loaded: a change of text leaves them.
    pub fn diagnostics(&self) -> impl DoubleEndedIterator<Item = DuplicateKey<'_>> {
        let page = self.page();
        (0..page.count(header::DIAGNOSTICS, layout::DIAGNOSTICS)).filter_map(move |row| {
            let key = page.text(page.field(layout::DIAGNOSTICS, row, 0)?);
            let (first, second) = (page.pointer(layout::DIAGNOSTICS, row, 1)?, page.pointer(layout::DIAGNOSTICS, row, 4)?);
            Some(DuplicateKey { key, first, second })
        })
    }

    /// The lost list: for each of the [`diagnostics`](Store::diagnostics) its first node, whose value was replaced.
    pub fn lost(&self) -> impl DoubleEndedIterator<Item = Pointer> + '_ {
        let page = self.page();
        (0..page.count(header::LOST, layout::LOST)).filter_map(move |row| page.pointer(layout::LOST, row, 0))
    }

    /// A scope.
    ///
    /// ```
    /// # let store = lang_ast::Store::load(&std::fs::read("../../examples/lambda.sheet")?)?;
    /// use lang_ast::{NameId, Scope, ScopeId, ScopeKind};
    /// let scope = Scope { parent: Some(ScopeId(0)), kind: ScopeKind::Definitions(vec![NameId(0)]) };
    /// assert_eq!(store.scope(ScopeId(1)), Some(scope));
    /// # Ok::<(), Box<dyn std::error::Error>>(())
    /// ```
    pub fn scope(&self, scope: ScopeId) -> Option<Scope> {
        let parent = self.parent(scope)?;
        let kind = match self.with_of(scope)? {
            Some(with) => ScopeKind::WithExpr(with),
            None => ScopeKind::Definitions(self.entered(scope)?),
        };
        Some(Scope { parent, kind })
    }

    /// A field of a scope that is 0 for none, else one more than a number below `end`; none at all where it is neither.
    fn scope_field(&self, scope: ScopeId, place: usize, end: u32) -> Option<Option<u32>> {
        let row = below(scope.0, self.scope_count())?;
        match self.page().field(layout::SCOPES, row, place)? {
            0 => Some(None),
            word => one_less(word, end).map(Some),
        }
    }

    /// The scope around a scope. Its number is lower, so going up ends whatever the bytes are.
    fn parent(&self, scope: ScopeId) -> Option<Option<ScopeId>> {
        Some(self.scope_field(scope, 1, scope.0)?.map(ScopeId))
    }

    /// The With that a scope is for.
    fn with_of(&self, scope: ScopeId) -> Option<Option<ExprId>> {
        Some(self.scope_field(scope, 2, self.expr_count())?.map(ExprId))
    }

    /// The names of a scope's list, in the order of entering.
    fn entered(&self, scope: ScopeId) -> Option<Vec<NameId>> {
        let (page, names) = (self.page(), self.name_count());
        let mut rows = page.list(layout::SCOPES, scope.0, layout::ENTERED)?;
        rows.try_fold(Vec::new(), |mut entered, row| {
            entered.push(NameId(below(page.field(layout::ENTERED, row, 0)?, names)?));
            Some(entered)
        })
    }

    /// The scope in which an expression finds names; none for one that is not walked.
    pub fn scope_of(&self, expr: ExprId) -> Option<ScopeId> {
        let row = below(expr.0, self.expr_count())?;
        one_less(self.page().field(layout::USES, row, 0)?, self.scope_count()).map(ScopeId)
    }

    /// A scope and those around it, innermost first.
    pub fn scopes_around(&self, scope: ScopeId) -> impl Iterator<Item = ScopeId> + '_ {
        let first = below(scope.0, self.scope_count()).map(ScopeId);
        std::iter::successors(first, |&inner| self.parent(inner).flatten())
    }

    /// The Withs around an expression, innermost first.
    pub fn withs_around(&self, expr: ExprId) -> Vec<ExprId> {
        let innermost = self.scope_of(expr).into_iter();
        innermost.flat_map(|scope| self.scopes_around(scope)).filter_map(|scope| self.with_of(scope).flatten()).collect()
    }

    /// The scope that a name was entered in; none for a name of a set that is not rec.
    ///
    /// ```
    /// # let store = lang_ast::Store::load(&std::fs::read("../../examples/lambda.sheet")?)?;
    /// use lang_ast::{NameId, ScopeId};
    /// assert_eq!(store.scope_holding(NameId(0)), Some(ScopeId(1)));
    /// # Ok::<(), Box<dyn std::error::Error>>(())
    /// ```
    pub fn scope_holding(&self, name: NameId) -> Option<ScopeId> {
        let (page, wanted) = (self.page(), below(name.0, self.name_count())?);
        let entered = |row| page.field(layout::ENTERED, row, 0) == Some(wanted);
        let has = |scope: ScopeId| page.list(layout::SCOPES, scope.0, layout::ENTERED).is_some_and(|mut rows| rows.any(entered));
        self.scopes().find(|&scope| self.with_of(scope) == Some(None) && has(scope))
    }

    /// What a Reference means by the answer that is kept: what [`Store::ask_reference`] says, without the check of the
    /// store. None where the expression is no Reference.
    pub fn kept_answer(&self, expr: ExprId) -> Option<Answer> {
        self.reference_text(expr)?;
        Some(match self.page().field(layout::USES, expr.0, 1)? {
            0 => Answer::None,
            1 => Answer::Withs(self.withs_around(expr)),
            word => match Builtin::from_index(word - 2) {
                Some(builtin) => Answer::Builtin(builtin),
                None => Answer::Definition(NameId(below(word - 2 - Builtin::COUNT, self.name_count())?)),
            },
        })
    }

    /// The References that are kept for a name, ascending: what [`Store::ask_name`] says, without the check of the
    /// store.
    pub fn kept_references(&self, name: NameId) -> Option<Vec<ExprId>> {
        let (page, exprs) = (self.page(), self.expr_count());
        let mut rows = page.list(layout::REFERENCES, below(name.0, self.name_count())?, layout::KEPT)?;
        rows.try_fold(Vec::new(), |mut kept, row| {
            kept.push(ExprId(below(page.field(layout::KEPT, row, 0)?, exprs)?));
            Some(kept)
        })
    }

    /// How many bytes of texts the changes since the load have, at most [`CHANGE_ROOM`](crate::CHANGE_ROOM).
    pub fn room_spent(&self) -> u32 {
        self.page().word(header::SPENT).unwrap_or_default().min(layout::CHANGE_ROOM)
    }

    /// How many bytes of texts further changes may have.
    ///
    /// ```
    /// # let mut store = lang_ast::Store::load(&std::fs::read("../../examples/lambda.sheet")?)?;
    /// store.change_name(lang_ast::NameId(0), b"long")?;
    /// assert_eq!((store.room_spent(), store.room_left()), (4, 8_188));
    /// # Ok::<(), Box<dyn std::error::Error>>(())
    /// ```
    pub fn room_left(&self) -> u32 {
        layout::CHANGE_ROOM - self.room_spent()
    }
}
