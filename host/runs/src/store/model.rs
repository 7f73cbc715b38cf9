//! Random modules as plain Rust values: every sort and tag, numbers at their bounds, and tables at their limits.

use super::layout;
use super::module::*;
use generate::Rng;

/// How much of everything a module has.
#[derive(Debug, Clone, Default)]
pub struct Size {
    pub exprs: usize,
    /// Items, exactly so many where three expressions can hold them; else at most.
    pub items: usize,
    pub names: usize,
    pub diagnostics: usize,
    pub lost: usize,
    pub scopes: usize,
    /// Names in the order of entering, and kept references: exactly so many where there is something to enter or to
    /// keep.
    pub entered: usize,
    pub references: usize,
    /// Bytes of texts in use, at most.
    pub texts: usize,
}

/// The longest list: as many items as may wait.
const LONGEST: usize = layout::WAITING.limit;

impl Size {
    /// Every table at its limit.
    pub fn full() -> Self {
        Size {
            exprs: layout::EXPRS.limit,
            items: layout::ITEMS.limit,
            names: layout::NAMES.limit,
            diagnostics: layout::DIAGNOSTICS.limit,
            lost: layout::LOST.limit,
            scopes: layout::SCOPES.limit,
            entered: layout::ENTERED.limit,
            references: layout::KEPT.limit,
            texts: layout::TEXTS_UNSPENT,
        }
    }

    /// About so many of everything.
    pub fn about(rng: &mut Rng, most: usize) -> Self {
        let mut up_to = |limit: usize| rng.between(0, limit);
        Size {
            exprs: 1 + up_to(most),
            items: up_to(3 * most),
            names: up_to(most),
            diagnostics: up_to(most),
            lost: up_to(most),
            scopes: up_to(most),
            entered: up_to(most),
            references: up_to(most),
            texts: 40 * most,
        }
    }

    /// Some tables at their limits, and little or nothing in the others.
    fn lopsided(rng: &mut Rng) -> Self {
        let full = Size::full();
        let mut some = |limit: usize| rng.pick(&[0, 1, 3, limit - 1, limit]);
        Size {
            exprs: some(full.exprs),
            items: some(full.items),
            names: some(full.names),
            diagnostics: some(full.diagnostics),
            lost: some(full.lost),
            scopes: some(full.scopes),
            entered: some(full.entered),
            references: some(full.references),
            texts: full.texts,
        }
    }

    /// Seeds that follow one another go through the sorts of sizes.
    pub fn of_seed(rng: &mut Rng, seed: u64) -> Self {
        match seed % 10 {
            0 => Size::full(),
            1 | 2 => Size::lopsided(rng),
            3 => Size { exprs: 0, items: 0, references: 0, ..Size::about(rng, 20) },
            4 => Size { exprs: 1, ..Size::about(rng, 4) },
            5..=7 => Size::about(rng, 60),
            _ => Size::about(rng, 1_500),
        }
    }
}

/// The texts that a module draws from: short ones, the empty one, and at times one that takes all the room that is
/// left.
pub fn texts(rng: &mut Rng, size: &Size) -> Vec<Vec<u8>> {
    let mut texts = vec![Vec::new()];
    let mut left = size.texts;
    for _ in 0..rng.between(0, (size.names + size.diagnostics + size.exprs).min(20_000)) {
        let longest = rng.pick(&[0, 1, 4, 24]);
        let text: Vec<u8> = (0..rng.between(0, longest)).map(|_| rng.draw() as u8).collect();
        // Half of the room is for the long one.
        if left > size.texts / 2 + 64 {
            left -= 4 + text.len();
            texts.push(text);
        }
    }
    if left > 4 && rng.chance(50) {
        texts[0] = vec![rng.draw() as u8; left - 4];
    }
    texts
}

/// A random module of this size.
pub fn module<'a>(rng: &mut Rng, size: &Size, texts: &'a [Vec<u8>]) -> Module<'a> {
    let mut draw = Draw { rng, size, texts, items: size.items };
    let mut module = Module { exprs: draw.exprs(), ..Module::default() };
    module.names = draw.names();
    module.diagnostics = (0..size.diagnostics).map(|_| draw.duplicate()).collect();
    module.lost = (0..size.lost).map(|_| draw.pointer()).collect();
    module.entry = draw.child(size.exprs);
    module.scopes = draw.scopes();
    let spent = draw.rng.between(0, layout::SPENT_LIMIT);
    module.spent = draw.rng.pick(&[0, layout::SPENT_LIMIT, spent]) as u32;
    module
}

struct Draw<'r, 'a> {
    rng: &'r mut Rng,
    size: &'r Size,
    texts: &'a [Vec<u8>],
    /// How many items may still be given out.
    items: usize,
}

impl<'a> Draw<'_, 'a> {
    fn exprs(&mut self) -> Vec<Placed<'a>> {
        (0..self.size.exprs).map(|e| self.placed(e)).collect()
    }

    fn placed(&mut self, e: usize) -> Placed<'a> {
        let last = self.size.exprs - e;
        let expr = if last <= 2 && e > 0 { self.rest(e, last) } else { self.expr(e) };
        let pointer = if expr == Expr::Hole { None } else { Some(self.pointer()) };
        let scope = if self.rng.chance(80) { self.number(self.size.scopes) } else { None };
        Placed { expr, pointer, scope, answer: self.answer() }
    }

    /// A list that takes what is left of the items; the last two do, since a list has at most as many as may wait.
    fn rest(&mut self, e: usize, last: usize) -> Expr<'a> {
        let length = if last == 2 { self.items.min(LONGEST) } else { self.items };
        if self.items == 0 || length > LONGEST {
            return self.expr(e);
        }
        self.items -= length;
        Expr::List((0..length).filter_map(|_| self.child(e)).collect())
    }

    /// One of all the sorts that the expression e may have.
    fn expr(&mut self, e: usize) -> Expr<'a> {
        loop {
            let sort = self.rng.below(22);
            if let Some(expr) = self.leaf(sort).or_else(|| self.branch(sort, e)) {
                return expr;
            }
        }
    }

    /// A sort without children.
    fn leaf(&mut self, sort: usize) -> Option<Expr<'a>> {
        Some(match sort {
            0 => Expr::Hole,
            1 => Expr::Missing,
            2 => Expr::Float(self.literal(0x7ff0_0000_0000_0000)),
            3 => Expr::Integer(self.literal(i64::MAX as u64)),
            4 => Expr::String(self.text()),
            5 => Expr::Path(self.text()),
            6 => Expr::Uri,
            7 => Expr::Reference(self.text()),
            _ => return None,
        })
    }

    /// A sort with children; none where it takes a number that there is not.
    fn branch(&mut self, sort: usize, e: usize) -> Option<Expr<'a>> {
        Some(match sort {
            8 => Expr::List(self.children(e)),
            9 => Expr::AttrSet { recursive: self.rng.chance(50), bindings: self.bindings(e) },
            10 => Expr::StringInterpolation(self.parts(e)),
            11 => Expr::PathInterpolation(self.parts(e)),
            12 => Expr::Apply { function: self.child(e)?, argument: self.child(e)? },
            13 => Expr::IfThenElse { condition: self.child(e)?, then: self.child(e)?, otherwise: self.child(e)? },
            14 | 15 => Expr::Lambda { body: self.child(e)?, parameter: self.maybe_name(), pattern: self.maybe_pattern(e) },
            16 => Expr::LetIn { body: self.child(e)?, bindings: self.bindings(e) },
            17 => Expr::BinOp { left: self.child(e)?, right: self.child(e)?, operator: self.rng.between(1, 15) as u32 },
            18 => Expr::UnaryOp { operator: self.rng.between(1, 2) as u32, operand: self.child(e)? },
            19 => Expr::Select { set: self.child(e)?, default: self.maybe_child(e), attributes: self.children(e) },
            20 => Expr::HasAttr { set: self.child(e)?, attributes: self.children(e) },
            _ if self.rng.chance(50) => Expr::With { namespace: self.child(e)?, body: self.child(e)? },
            _ => Expr::Assert { condition: self.child(e)?, body: self.child(e)? },
        })
    }

    /// A number below `end`, often the least or the last; none where there is none.
    fn number(&mut self, end: usize) -> Option<u32> {
        let last = end.checked_sub(1)?;
        Some(match self.rng.below(8) {
            0 => 0,
            1 | 2 => last as u32,
            _ => self.rng.between(0, last) as u32,
        })
    }

    fn child(&mut self, e: usize) -> Option<u32> {
        self.number(e)
    }

    fn maybe_child(&mut self, e: usize) -> Option<u32> {
        if self.rng.chance(50) {
            self.child(e)
        } else {
            None
        }
    }

    fn maybe_name(&mut self) -> Option<u32> {
        if self.rng.chance(50) {
            self.number(self.size.names)
        } else {
            None
        }
    }

    /// How long a list is; so many items are given out.
    fn length(&mut self) -> usize {
        let most = self.rng.pick(&[0, 1, 2, 4, 8, 40]);
        let length = self.rng.between(0, most).min(self.items);
        self.items -= length;
        length
    }

    fn children(&mut self, e: usize) -> Vec<u32> {
        (0..self.length()).filter_map(|_| self.child(e)).collect()
    }

    fn parts(&mut self, e: usize) -> Vec<Part<'a>> {
        let part = |draw: &mut Self| draw.maybe_child(e).map_or_else(|| Part::Literal(draw.text()), Part::Expr);
        (0..self.length()).map(|_| part(self)).collect()
    }

    fn maybe_pattern(&mut self, e: usize) -> Option<Pattern> {
        if self.rng.chance(30) {
            return None;
        }
        let fields = (0..self.length()).map(|_| Field { name: self.maybe_name(), default: self.maybe_child(e) }).collect();
        Some(Pattern { fields, ellipsis: self.rng.chance(50) })
    }

    fn bindings(&mut self, e: usize) -> Bindings {
        let mut bindings = Bindings::default();
        for _ in 0..self.length() {
            let way = self.rng.pick(&[Way::Plain, Way::Inherited, Way::InheritedFrom]);
            match (self.rng.below(4), self.child(e), self.child(e)) {
                (0, Some(source), _) => bindings.sources.push(source),
                (1, Some(key), Some(value)) => bindings.dynamics.push((key, value)),
                (_, Some(value), _) => bindings.statics.extend(self.number(self.size.names).map(|name| Static { name, value, way })),
                _ => {}
            }
        }
        bindings
    }

    fn literal(&mut self, most: u64) -> u64 {
        match self.rng.below(4) {
            0 => most,
            1 => u64::from(self.rng.draw() as u32),
            2 => 0,
            _ => self.rng.draw() % (most + 1),
        }
    }

    fn text(&mut self) -> &'a [u8] {
        // The long text is the first, and is drawn seldom, since comparing it takes time.
        let first = usize::from(self.texts.len() > 1 && !self.rng.chance(1));
        &self.texts[self.rng.between(first, self.texts.len() - 1)]
    }

    fn pointer(&mut self) -> Pointer {
        let kind = self.rng.pick(&[0, 1, 18, 33, u32::MAX]);
        Pointer { kind, from: self.rng.draw() as u32, to: self.rng.draw() as u32 }
    }

    fn answer(&mut self) -> Answer {
        match self.rng.below(5) {
            0 => Answer::None,
            1 => Answer::Withs,
            2 => Answer::Builtin(self.rng.between(0, 21) as u32),
            _ => self.number(self.size.names).map_or(Answer::None, Answer::Definition),
        }
    }

    fn duplicate(&mut self) -> Duplicate<'a> {
        Duplicate { key: self.text(), first: self.pointer(), second: self.pointer() }
    }

    fn names(&mut self) -> Vec<Name<'a>> {
        let kept = if self.size.exprs > 0 { self.size.references } else { 0 };
        let lengths = self.rng.split(kept, self.size.names.max(1));
        (0..self.size.names).map(|n| self.name(lengths[n])).collect()
    }

    fn name(&mut self, references: usize) -> Name<'a> {
        let references = (0..references).filter_map(|_| self.number(self.size.exprs)).collect();
        Name { text: self.text(), kind: self.rng.between(0, 4) as u32, pointer: self.pointer(), references }
    }

    /// The first scope is the root, which has no parent and no names.
    fn scopes(&mut self) -> Vec<Scope> {
        let entered = if self.size.names > 0 { self.size.entered } else { 0 };
        let lengths = self.rng.split(entered, self.size.scopes.max(2) - 1);
        (0..self.size.scopes).map(|s| self.scope(s, if s == 0 { 0 } else { lengths[s - 1] })).collect()
    }

    fn scope(&mut self, s: usize, entered: usize) -> Scope {
        let with = if s > 0 && entered == 0 { self.maybe_child(self.size.exprs) } else { None };
        let names = (0..entered).filter_map(|_| self.number(self.size.names)).collect();
        Scope { parent: self.number(s), what: with.map_or(Scoped::Definitions(names), Scoped::With) }
    }
}
