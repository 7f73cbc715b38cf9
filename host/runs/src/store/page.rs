//! A reader of stores, written from docs/STORE.md alone: from bytes to a module. It follows the page's tables row by
//! row and has an error for every number that they do not list.

use super::layout::{self, header, Table};
use super::module::*;

/// What a reading comes to; the error says what was wrong.
pub type Read<T> = Result<T, String>;

/// Reads a whole store.
pub fn read(bytes: &[u8]) -> Read<Module<'_>> {
    let page = Page::open(bytes)?;
    let mut module = page.lowered()?;
    page.keep(&mut module)?;
    Ok(module)
}

/// The rows of a list, by their numbers.
type Rows = std::ops::Range<u32>;

/// A store and the counts that other numbers are held against.
struct Page<'a> {
    bytes: &'a [u8],
    exprs: u32,
    names: u32,
    scopes: u32,
    texts: u32,
}

impl<'a> Page<'a> {
    fn open(bytes: &'a [u8]) -> Read<Self> {
        if bytes.len() < layout::BYTES {
            return Err(format!("{} bytes", bytes.len()));
        }
        let mut page = Page { bytes, exprs: 0, names: 0, scopes: 0, texts: 0 };
        page.exprs = page.count(header::EXPRS, layout::EXPRS)?;
        page.names = page.count(header::NAMES, layout::NAMES)?;
        page.scopes = page.count(header::SCOPES, layout::SCOPES)?;
        let spent = at_most(page.word(header::SPENT)?, layout::SPENT_LIMIT, "spent bytes")?;
        page.texts = at_most(page.word(header::TEXTS)?, layout::TEXTS_UNSPENT + 5 * spent as usize, "bytes of texts")?;
        Ok(page)
    }

    fn lowered(&self) -> Read<Module<'a>> {
        let mut module = Module { spent: self.word(header::SPENT)?, texts: self.texts, ..Module::default() };
        let items = self.lists(layout::EXPRS, self.exprs, layout::ITEMS)?;
        for e in 0..self.exprs {
            module.exprs.push(self.placed(e, &items[e as usize])?);
        }
        for n in 0..self.names {
            module.names.push(self.name(n)?);
        }
        for d in 0..self.count(header::DIAGNOSTICS, layout::DIAGNOSTICS)? {
            module.diagnostics.push(self.duplicate(d)?);
        }
        for l in 0..self.count(header::LOST, layout::LOST)? {
            module.lost.push(self.pointer(layout::LOST, l, 0)?);
        }
        if self.exprs > 0 {
            module.entry = Some(self.expr(self.word(header::ENTRY)?)?);
        }
        Ok(module)
    }

    /// What a store keeps beside the lowered module: scopes, answers and references.
    fn keep(&self, module: &mut Module) -> Read<()> {
        for (e, placed) in (0..).zip(&mut module.exprs) {
            placed.scope = one_less(self.field(layout::USES, e, 0)?, self.scopes, "scope")?;
            placed.answer = self.answer(self.field(layout::USES, e, 1)?)?;
        }
        let kept = self.lists(layout::REFERENCES, self.names, layout::KEPT)?;
        for (name, kept) in module.names.iter_mut().zip(kept) {
            name.references = kept.map(|k| self.expr(self.field(layout::KEPT, k, 0)?)).collect::<Read<_>>()?;
        }
        let entered = self.lists(layout::SCOPES, self.scopes, layout::ENTERED)?;
        for s in 0..self.scopes {
            module.scopes.push(self.scope(s, &entered[s as usize])?);
        }
        Ok(())
    }

    fn word(&self, at: usize) -> Read<u32> {
        let four = self.bytes.get(at..at + 4).ok_or_else(|| format!("no word at {at}"))?;
        Ok(layout::get(four, 0))
    }

    fn field(&self, table: Table, row: u32, place: usize) -> Read<u32> {
        self.word(table.word(row as usize, place))
    }

    fn count(&self, at: usize, table: Table) -> Read<u32> {
        at_most(self.word(at)?, table.limit, "count")
    }

    /// The lists of so many rows: each goes to where the next begins, and the row after the last says how many elements
    /// are in use.
    fn lists(&self, rows: Table, count: u32, elements: Table) -> Read<Vec<Rows>> {
        let mut lists = Vec::new();
        let mut begin = self.field(rows, 0, 0)?;
        if begin != 0 {
            return Err(format!("the first list begins at {begin}"));
        }
        for row in 0..count {
            let end = at_most(self.field(rows, row + 1, 0)?, elements.limit, "first element")?;
            if end < begin {
                return Err(format!("the list of row {row} goes from {begin} to {end}"));
            }
            lists.push(begin..end);
            begin = end;
        }
        Ok(lists)
    }

    fn text(&self, number: u32) -> Read<&'a [u8]> {
        if number == layout::NONE {
            return Ok(&[]);
        }
        let (number, used) = (number as usize, self.texts as usize);
        if number + 4 > used {
            return Err(format!("text {number} with {used} bytes in use"));
        }
        let begin = layout::TEXTS + number + 4;
        let length = self.word(begin - 4)? as usize;
        if number + 4 + length > used {
            return Err(format!("text {number} of {length} bytes with {used} in use"));
        }
        self.bytes.get(begin..begin + length).ok_or_else(|| format!("text {number} outside the store"))
    }

    fn pointer(&self, table: Table, row: u32, place: usize) -> Read<Pointer> {
        let word = |i| self.field(table, row, place + i);
        Ok(Pointer { kind: word(0)?, from: word(1)?, to: word(2)? })
    }

    fn expr(&self, number: u32) -> Read<u32> {
        below(number, self.exprs, "expression")
    }

    fn name_number(&self, number: u32) -> Read<u32> {
        below(number, self.names, "name")
    }

    fn placed(&self, e: u32, items: &Rows) -> Read<Placed<'a>> {
        let expr = Row { page: self, e, items }.expr()?;
        let pointer = if expr == Expr::Hole { None } else { Some(self.pointer(layout::EXPR_POINTERS, e, 0)?) };
        Ok(Placed { expr, pointer, scope: None, answer: Answer::None })
    }

    fn answer(&self, word: u32) -> Read<Answer> {
        Ok(match word {
            0 => Answer::None,
            1 => Answer::Withs,
            2..=23 => Answer::Builtin(word - 2),
            _ => Answer::Definition(self.name_number(word - 24)?),
        })
    }

    fn name(&self, n: u32) -> Read<Name<'a>> {
        let text = self.text(self.field(layout::NAMES, n, 0)?)?;
        let kind = below(self.field(layout::NAMES, n, 1)?, 5, "kind of name")?;
        Ok(Name { text, kind, pointer: self.pointer(layout::NAME_POINTERS, n, 0)?, references: Vec::new() })
    }

    fn duplicate(&self, d: u32) -> Read<Duplicate<'a>> {
        let key = self.text(self.field(layout::DIAGNOSTICS, d, 0)?)?;
        Ok(Duplicate { key, first: self.pointer(layout::DIAGNOSTICS, d, 1)?, second: self.pointer(layout::DIAGNOSTICS, d, 4)? })
    }

    fn scope(&self, s: u32, entered: &Rows) -> Read<Scope> {
        let parent = one_less(self.field(layout::SCOPES, s, 1)?, s, "parent")?;
        let with = one_less(self.field(layout::SCOPES, s, 2)?, self.exprs, "With")?;
        // The list of a With's scope says nothing, yet its names are in use.
        let names = entered.clone().map(|i| self.name_number(self.field(layout::ENTERED, i, 0)?)).collect::<Read<_>>()?;
        Ok(Scope { parent, what: with.map_or(Scoped::Definitions(names), Scoped::With) })
    }
}

/// An item as it lies in its row: tag, a, b.
type Item = [u32; 3];

/// The row of an expression with its list.
struct Row<'p, 'a> {
    page: &'p Page<'a>,
    e: u32,
    items: &'p Rows,
}

impl<'a> Row<'_, 'a> {
    fn expr(&self) -> Read<Expr<'a>> {
        let word = |place| self.page.field(layout::EXPRS, self.e, place);
        let (sort, a, b, c) = (word(1)?, word(2)?, word(3)?, word(4)?);
        let bare = matches!(sort, 0..=10 | 17 | 20 | 21 | 25 | 26);
        if bare && !self.items.is_empty() {
            return Err(format!("sort {sort} with items"));
        }
        let expr = match sort {
            0 => Expr::Hole,
            1 => Expr::Missing,
            2 => Expr::Apply { function: self.child(a)?, argument: self.child(b)? },
            3 => Expr::IfThenElse { condition: self.child(a)?, then: self.child(b)?, otherwise: self.child(c)? },
            4 => Expr::Float(both(a, b, 0x7ff0_0000_0000_0000)?),
            5 => Expr::Integer(both(a, b, 9_223_372_036_854_775_807)?),
            6 => Expr::String(self.page.text(a)?),
            7 => Expr::Path(self.page.text(a)?),
            8 => Expr::Uri,
            9..=14 => self.lambda(sort, a, b)?,
            15 => Expr::LetIn { body: self.child(a)?, bindings: self.bindings()? },
            16 => Expr::List(self.exprs()?),
            17 => Expr::BinOp { left: self.child(a)?, right: self.child(b)?, operator: from_one(c, 15)? },
            18 => Expr::AttrSet { recursive: false, bindings: self.bindings()? },
            19 => Expr::AttrSet { recursive: true, bindings: self.bindings()? },
            20 => Expr::UnaryOp { operator: from_one(a, 2)?, operand: self.child(b)? },
            21 => Expr::Reference(self.page.text(a)?),
            22 => Expr::Select { set: self.child(a)?, default: None, attributes: self.exprs()? },
            23 => Expr::Select { set: self.child(a)?, default: Some(self.child(b)?), attributes: self.exprs()? },
            24 => Expr::HasAttr { set: self.child(a)?, attributes: self.exprs()? },
            25 => Expr::With { namespace: self.child(a)?, body: self.child(b)? },
            26 => Expr::Assert { condition: self.child(a)?, body: self.child(b)? },
            27 => Expr::StringInterpolation(self.parts()?),
            28 => Expr::PathInterpolation(self.parts()?),
            _ => return Err(format!("sort {sort}")),
        };
        Ok(expr)
    }

    fn child(&self, number: u32) -> Read<u32> {
        below(number, self.e, "child")
    }

    fn items(&self) -> Read<Vec<Item>> {
        let word = |row, place| self.page.field(layout::ITEMS, row, place);
        self.items.clone().map(|row| Ok([word(row, 0)?, word(row, 1)?, word(row, 2)?])).collect()
    }

    fn lambda(&self, sort: u32, a: u32, b: u32) -> Read<Expr<'a>> {
        let body = self.child(a)?;
        let parameter = if matches!(sort, 10 | 12 | 14) { Some(self.page.name_number(b)?) } else { None };
        let pattern = match sort {
            11 | 12 => Some(Pattern { fields: self.fields()?, ellipsis: false }),
            13 | 14 => Some(Pattern { fields: self.fields()?, ellipsis: true }),
            _ => None,
        };
        Ok(Expr::Lambda { body, parameter, pattern })
    }

    fn fields(&self) -> Read<Vec<Field>> {
        let field = |[tag, a, b]: Item| {
            let (name, default) = match tag {
                2 => (None, None),
                3 => (Some(a), None),
                4 => (None, Some(b)),
                5 => (Some(a), Some(b)),
                _ => return Err(format!("tag {tag} of a field")),
            };
            let name = name.map(|n| self.page.name_number(n)).transpose()?;
            let default = default.map(|n| self.child(n)).transpose()?;
            Ok(Field { name, default })
        };
        self.items()?.into_iter().map(field).collect()
    }

    fn exprs(&self) -> Read<Vec<u32>> {
        let expr = |[tag, a, _]: Item| if tag == 0 { self.child(a) } else { Err(format!("tag {tag} of an expression")) };
        self.items()?.into_iter().map(expr).collect()
    }

    fn parts(&self) -> Read<Vec<Part<'a>>> {
        let part = |[tag, a, _]: Item| match tag {
            0 => Ok(Part::Expr(self.child(a)?)),
            1 => Ok(Part::Literal(self.page.text(a)?)),
            _ => Err(format!("tag {tag} of a part")),
        };
        self.items()?.into_iter().map(part).collect()
    }

    fn bindings(&self) -> Read<Bindings> {
        let mut bindings = Bindings::default();
        for [tag, a, b] in self.items()? {
            let way = match tag {
                0 => {
                    bindings.sources.push(self.child(a)?);
                    continue;
                }
                9 => {
                    bindings.dynamics.push((self.child(a)?, self.child(b)?));
                    continue;
                }
                6 => Way::Plain,
                7 => Way::Inherited,
                8 => Way::InheritedFrom,
                _ => return Err(format!("tag {tag} of a binding")),
            };
            bindings.statics.push(Static { name: self.page.name_number(a)?, value: self.child(b)?, way });
        }
        Ok(bindings)
    }
}

fn at_most(number: u32, limit: usize, what: &str) -> Read<u32> {
    if number as usize <= limit {
        Ok(number)
    } else {
        Err(format!("{what} {number}, above {limit}"))
    }
}

fn below(number: u32, end: u32, what: &str) -> Read<u32> {
    if number < end {
        Ok(number)
    } else {
        Err(format!("{what} {number}, not below {end}"))
    }
}

/// 0 for none, else one more than a number below `end`.
fn one_less(word: u32, end: u32, what: &str) -> Read<Option<u32>> {
    word.checked_sub(1).map(|number| below(number, end, what)).transpose()
}

fn from_one(number: u32, last: u32) -> Read<u32> {
    if number >= 1 && number <= last {
        Ok(number)
    } else {
        Err(format!("operator {number}"))
    }
}

/// Two halves of a number, the higher first.
fn both(high: u32, low: u32, most: u64) -> Read<u64> {
    let value = u64::from(high) << 32 | u64::from(low);
    if value <= most {
        Ok(value)
    } else {
        Err(format!("a literal of {value:016x}"))
    }
}
