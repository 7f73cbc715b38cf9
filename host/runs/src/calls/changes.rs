//! Random changes of text: names and References, with texts that meet those of others, and some undone again.

use book::locality::{holding_scope, is_inside};
use canon::{Expr, Facts, ScopeKind};
use generate::names::BUILTINS;
use generate::Rng;
use std::collections::VecDeque;

/// The longest new text, in bytes.
const LONGEST: usize = book::TEXT_BYTES;
/// A chain of changes renames at most so many references beside their name.
const FOLLOWED: usize = 5;

#[derive(Debug, Clone, Copy, PartialEq, Eq)]
pub enum Target {
    Name(u32),
    Reference(u32),
}

#[derive(Debug, Clone)]
pub struct Change {
    pub target: Target,
    pub text: Vec<u8>,
}

/// Whether a module has a text that can be changed.
pub fn can_change(facts: &Facts) -> bool {
    !facts.module.names.is_empty() || !facts.resolution.answers.is_empty()
}

/// The text that a target has now; none where there is no such one.
pub fn text_of(facts: &Facts, target: Target) -> &[u8] {
    match target {
        Target::Name(name) => facts.module.names.get(name as usize).map_or(&[], |name| &name.text),
        Target::Reference(e) => match facts.module.exprs.get(e as usize) {
            Some(Expr::Reference(text)) => text,
            _ => &[],
        },
    }
}

/// The scope that holds a name, or that a Reference has.
fn scope_of(facts: &Facts, target: Target) -> Option<u32> {
    match target {
        Target::Name(name) => holding_scope(&facts.scopes, name),
        Target::Reference(e) => facts.scopes.of_expr[e as usize],
    }
}

/// Changes of one load, one after the other: some stand alone, others come in chains.
pub struct Changes {
    rng: Rng,
    /// Long texts most of the time, so that the change room is spent.
    greedy: bool,
    /// What is left of a chain.
    chain: VecDeque<Change>,
}

impl Changes {
    pub fn new(seed: u64, greedy: bool) -> Self {
        Changes { rng: Rng::new(seed), greedy, chain: VecDeque::new() }
    }

    /// A change that stands alone, beside the chain.
    pub fn alone(&mut self, facts: &Facts) -> Change {
        let target = self.target(facts);
        Change { target, text: self.text(facts, target) }
    }

    /// The next change. Its text is cut so that it may be set: to 255 bytes, and to this room.
    pub fn next(&mut self, facts: &Facts, room: usize) -> Change {
        let mut change = match self.chain.pop_front() {
            Some(change) => change,
            None => self.begin(facts),
        };
        change.text.truncate(LONGEST);
        if change.text != text_of(facts, change.target) {
            change.text.truncate(room);
        }
        change
    }

    /// A change, and the rest of its chain where it begins one.
    fn begin(&mut self, facts: &Facts) -> Change {
        let target = self.target(facts);
        let mut text = self.text(facts, target);
        // In a small module most texts are the one that is there already.
        if text == text_of(facts, target) && self.rng.chance(80) {
            text = self.text(facts, target);
        }
        match (self.rng.below(100), target) {
            (0..18, _) => self.and_back(facts, &[target], &text, 1),
            (18..22, _) => self.and_back(facts, &[target], &text, 2),
            (22..32, Target::Name(name)) => {
                let kept = &facts.resolution.references[name as usize];
                let followed = kept.iter().take(FOLLOWED).map(|&e| Target::Reference(e));
                let targets: Vec<Target> = std::iter::once(target).chain(followed).collect();
                self.and_back(facts, &targets, &text, 1);
            }
            (32..40, Target::Name(_)) => self.swap(facts, target),
            _ => self.chain.push_back(Change { target, text }),
        }
        self.chain.pop_front().unwrap_or(Change { target, text: Vec::new() })
    }

    /// All targets get the text, one after the other, and then again what they have now; so many times.
    fn and_back(&mut self, facts: &Facts, targets: &[Target], text: &[u8], times: usize) {
        for _ in 0..times {
            for &target in targets {
                self.chain.push_back(Change { target, text: text.to_vec() });
            }
            for &target in targets {
                self.chain.push_back(Change { target, text: text_of(facts, target).to_vec() });
            }
        }
    }

    /// Two names get each other's text.
    fn swap(&mut self, facts: &Facts, target: Target) {
        let other = Target::Name(self.rng.below(facts.module.names.len()) as u32);
        for (target, of) in [(target, other), (other, target)] {
            self.chain.push_back(Change { target, text: text_of(facts, of).to_vec() });
        }
    }

    /// A name, often one that is used, or a Reference.
    fn target(&mut self, facts: &Facts) -> Target {
        let (names, answers) = (facts.module.names.len(), &facts.resolution.answers);
        if names == 0 || (!answers.is_empty() && self.rng.chance(40)) {
            let e = answers.keys().nth(self.rng.below(answers.len()));
            return Target::Reference(e.copied().unwrap_or(0));
        }
        let from = self.rng.below(names);
        let used = (from..names).chain(0..from).find(|&name| !facts.resolution.references[name].is_empty());
        Target::Name(used.filter(|_| self.rng.chance(60)).unwrap_or(from) as u32)
    }

    fn text(&mut self, facts: &Facts, target: Target) -> Vec<u8> {
        if self.greedy && self.rng.chance(90) {
            return self.long();
        }
        match self.rng.below(100) {
            0..15 => self.some_name(facts),
            15..35 => self.name_around(facts, target),
            35..50 => self.use_inside(facts, target),
            50..60 => self.some_reference(facts),
            60..72 => self.rng.pick(&BUILTINS).to_vec(),
            72..78 => Vec::new(),
            78..84 => text_of(facts, target).to_vec(),
            84..90 => format!("fresh{}", self.rng.below(6)).into_bytes(),
            90..94 => (0..self.rng.between(1, 3)).map(|_| self.rng.between(126, 255) as u8).collect(),
            94..97 => self.nearly(facts, target),
            _ => self.long(),
        }
    }

    fn some_name(&mut self, facts: &Facts) -> Vec<u8> {
        let names = &facts.module.names;
        names.get(self.rng.below(names.len())).map_or(Vec::new(), |name| name.text.clone())
    }

    fn some_reference(&mut self, facts: &Facts) -> Vec<u8> {
        let answers = &facts.resolution.answers;
        let e = answers.keys().nth(self.rng.below(answers.len()));
        e.map_or(Vec::new(), |&e| text_of(facts, Target::Reference(e)).to_vec())
    }

    /// The text of a name in the target's scope or one around it, often the innermost that has names.
    fn name_around(&mut self, facts: &Facts, target: Target) -> Vec<u8> {
        let mut at = scope_of(facts, target);
        while let Some(scope) = at.map(|number| &facts.scopes.scopes[number as usize]) {
            at = scope.parent;
            match &scope.kind {
                ScopeKind::Definitions(names) if !names.is_empty() && self.rng.chance(70) => {
                    return text_of(facts, Target::Name(self.rng.pick(names))).to_vec();
                }
                _ => {}
            }
        }
        self.some_name(facts)
    }

    /// The text of a Reference whose scope is the target's or inside it, so that a name of this text would be its
    /// answer.
    fn use_inside(&mut self, facts: &Facts, target: Target) -> Vec<u8> {
        let Some(outer) = scope_of(facts, target) else { return self.some_reference(facts) };
        let inside = |e: &&u32| facts.scopes.of_expr[**e as usize].is_some_and(|scope| is_inside(&facts.scopes, scope, outer));
        let uses: Vec<u32> = facts.resolution.answers.keys().filter(inside).copied().collect();
        uses.get(self.rng.below(uses.len())).map_or(Vec::new(), |&e| text_of(facts, Target::Reference(e)).to_vec())
    }

    /// A byte more or a byte less than the text now.
    fn nearly(&mut self, facts: &Facts, target: Target) -> Vec<u8> {
        let mut text = text_of(facts, target).to_vec();
        if self.rng.chance(50) {
            text.pop();
        } else {
            text.push(b'a');
        }
        text
    }

    /// Some 255 bytes that differ at their end, if at all.
    fn long(&mut self) -> Vec<u8> {
        let mut text = vec![self.rng.pick(b"lm"); self.rng.between(LONGEST - 3, LONGEST)];
        if self.rng.chance(50) {
            text.pop();
            text.push(self.rng.draw() as u8);
        }
        text
    }
}
