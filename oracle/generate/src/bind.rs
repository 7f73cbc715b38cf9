//! What brings names: entries of sets and lets, paths and their attributes, inherits, parameters.

use crate::grow::{Grower, Room};
use crate::tree::Tree;
use sheet::{kind::*, MAX_ATTRS};

impl Grower<'_> {
    pub fn attr_set(&mut self, room: Room) -> Tree {
        let rec = self.rng.chance(35);
        let mark = self.around.len();
        let entries = self.entries(room.inside(), rec);
        self.around.truncate(mark);
        Tree::full(ATTR_SET, entries).flagged(u8::from(rec))
    }

    pub fn let_in(&mut self, room: Room) -> Tree {
        let (entries, body) = self.body_rooms(room, 70);
        let mark = self.around.len();
        let entries = self.entries(entries, true);
        let body = self.expr_place(body);
        self.around.truncate(mark);
        Tree::new(LET_IN, std::iter::once(body).chain(entries.into_iter().map(Some)).collect())
    }

    pub fn lambda(&mut self, room: Room) -> Tree {
        let percent = if self.rng.chance(40) { 0 } else { 30 };
        let (parameter, body) = self.body_rooms(room, percent);
        let mark = self.around.len();
        let parameter = self.parameter(parameter);
        let body = self.expr_place(body);
        self.around.truncate(mark);
        Tree::new(LAMBDA, vec![parameter, body])
    }

    fn parameter(&mut self, room: Room) -> Option<Tree> {
        if !room.holds(1, 1) || self.leaves_out(room) {
            return None;
        }
        if self.rng.chance(if room.nodes > 2 { 10 } else { 75 }) {
            let ident = self.binder(room.inside());
            return Some(Tree::new(IDENT_PARAM, vec![ident]));
        }
        let mut kids = vec![None];
        let mut left = room.inside();
        if left.holds(1, 1) && self.rng.chance(60) {
            let ident = self.binder(left.inside());
            let bind = Tree::new(PAT_BIND, vec![ident]);
            left.nodes -= bind.size();
            kids[0] = Some(bind);
        }
        // First the names, so that the defaults can refer to all of them, then the defaults.
        let rooms = self.item_rooms(left);
        let idents: Vec<_> = rooms.iter().map(|room| self.binder(room.inside())).collect();
        for (room, ident) in rooms.into_iter().zip(idents) {
            let taken = ident.iter().count();
            let default = self.expr_place(room.inside().with_nodes(room.nodes - 1 - taken));
            kids.push(Some(Tree::new(PAT_ENTRY, vec![ident, default])));
        }
        Some(Tree::new(PATTERN, kids).flagged(u8::from(self.rng.chance(30))))
    }

    /// The ident of a parameter, a bind or a pattern entry; its name is around from here on.
    fn binder(&mut self, room: Room) -> Option<Tree> {
        if !room.holds(1, 1) || self.rng.chance(8) {
            return None;
        }
        if self.rng.chance(5) {
            self.around.push(Vec::new());
            return Some(Tree::leaf(IDENT));
        }
        // A name that is bound already, by a bind and a field of one pattern for example, comes up more often than by
        // chance.
        let text = match self.around.last() {
            Some(last) if self.rng.chance(20) => last.clone(),
            _ => self.names.key(self.rng),
        };
        self.around.push(text.clone());
        Some(Tree::ident(&text))
    }

    /// Entries that take at most `room` together. Paths and inherited attributes come first, so that the values of a
    /// let or a rec set can refer to them; then what room is left goes to the values and sources.
    fn entries(&mut self, room: Room, opens: bool) -> Vec<Tree> {
        let mut entries: Vec<Tree> = Vec::new();
        let mut left = if room.depth > 0 { room.nodes } else { 0 };
        let least = if left > 10 { 2 } else { 0 };
        let wanted = if self.rng.chance(85) { self.rng.between(least, 7) } else { self.rng.between(least, 40) };
        // The values should get half of the room, or else few of them are sets.
        let kept = if self.rng.chance(80) { left / 2 } else { 0 };
        while left > kept && entries.len() < wanted {
            let share = (left - kept).min(self.rng.between(1, 24));
            let entry = self.entry(&entries, room.with_nodes(share));
            left -= entry.size();
            entries.push(entry);
        }
        if opens {
            let keys = entries.iter().flat_map(bound_attributes).filter_map(static_text);
            self.around.extend(keys);
        }
        let each = if left >= 3 * entries.len() { 3 } else { 0 };
        let shares = self.rng.split(left - each * entries.len(), entries.len());
        for (entry, share) in entries.iter_mut().zip(shares) {
            self.complete(entry, room.with_nodes(each + share));
        }
        entries
    }

    /// An entry without its value or source.
    fn entry(&mut self, earlier: &[Tree], room: Room) -> Tree {
        if self.rng.chance(22) {
            let rooms = if self.rng.chance(10) { Vec::new() } else { self.item_rooms(room.inside()) };
            let attributes = rooms.into_iter().map(|room| Some(self.attribute(room)));
            return Tree::new(INHERIT, std::iter::once(None).chain(attributes).collect());
        }
        let path = self.entry_path(earlier, room.inside());
        Tree::new(ATTRPATH_VALUE, vec![path, None])
    }

    /// Gives an entry its value or source; `room.nodes` is what they may take, `room.depth` what the entry may.
    fn complete(&mut self, entry: &mut Tree, room: Room) {
        let below = Room { depth: room.depth - 1, ..room };
        if entry.kind == ATTRPATH_VALUE {
            entry.kids[1] = self.value(below);
        } else if below.holds(1, 1) && (below.nodes > 8 || self.rng.chance(40)) {
            entry.kids[0] = Some(self.fixed(INHERIT_FROM, 1, below));
        }
    }

    /// The value of an entry: often a set, since only a set directly under its entry merges and one in a Paren or a
    /// Root does not.
    fn value(&mut self, room: Room) -> Option<Tree> {
        if !room.holds(2, 2) || !self.rng.chance(self.sets) {
            return self.expr_place(room);
        }
        Some(match self.rng.below(100) {
            0..70 => self.attr_set(room),
            70..85 => Tree::full(PAREN, vec![self.attr_set(room.inside())]),
            _ => Tree::full(ROOT, vec![self.attr_set(room.inside())]),
        })
    }

    /// The path of an entry: new, or one that an earlier entry of the set has, or a beginning of it, or that with more
    /// behind it.
    fn entry_path(&mut self, earlier: &[Tree], room: Room) -> Option<Tree> {
        if !room.holds(1, 1) || self.rng.chance(3) {
            return None;
        }
        let paths: Vec<&Tree> =
            earlier.iter().filter(|entry| entry.kind == ATTRPATH_VALUE).filter_map(|entry| entry.kids[0].as_ref()).collect();
        if paths.is_empty() || self.rng.chance(30) {
            return Some(self.attrpath(Vec::new(), room));
        }
        let attributes: Vec<Tree> = self.rng.pick(&paths).present().cloned().collect();
        let kept = self.rng.between(1, attributes.len());
        let begun: Vec<Tree> = attributes.into_iter().take(kept).collect();
        if 1 + begun.iter().map(Tree::size).sum::<usize>() > room.nodes {
            return Some(self.attrpath(Vec::new(), room));
        }
        match self.rng.chance(50) {
            true => Some(Tree::full(ATTRPATH, begun)),
            false => Some(self.attrpath(begun, room)),
        }
    }

    /// The path of a Select or a HasAttr.
    pub fn path_place(&mut self, room: Room) -> Option<Tree> {
        (room.holds(1, 1) && !self.leaves_out(room)).then(|| self.attrpath(Vec::new(), room))
    }

    /// A path that begins with these attributes and goes on with some more, 16 at most.
    fn attrpath(&mut self, begun: Vec<Tree>, room: Room) -> Tree {
        let mut attributes = begun;
        let more = self.rng.weighted(&[(3, 0), (45, 1), (25, 2), (14, 3), (5, 4), (4, 8), (5, 16)]);
        let inside = room.inside();
        let mut left = inside.nodes - attributes.iter().map(Tree::size).sum::<usize>();
        for _ in 0..more {
            if left == 0 || inside.depth == 0 || attributes.len() == MAX_ATTRS {
                break;
            }
            // A long path is made of single Idents mostly, or else it would not fit.
            let share = if more > 4 { self.rng.between(1, 2) } else { left };
            let attribute = self.attribute(inside.with_nodes(share.min(left)));
            left -= attribute.size();
            attributes.push(attribute);
        }
        Tree::full(ATTRPATH, attributes)
    }

    pub fn attribute(&mut self, room: Room) -> Tree {
        match self.rng.below(100) {
            0..65 => Tree::ident(&self.names.key(self.rng)),
            65..69 => Tree::leaf(IDENT),
            69..80 => self.plain_str(room),
            80..88 => Tree::full(STR, self.parts(room)),
            _ => self.dynamic(room),
        }
    }

    /// A Str that is a static key: no part, or a single literal one.
    fn plain_str(&mut self, room: Room) -> Tree {
        let parts = if room.holds(2, 2) && self.rng.chance(80) { 1 } else { 0 };
        Tree::full(STR, (0..parts).map(|_| Tree::leaf(LITERAL_PART).with_text(&self.names.key(self.rng))).collect())
    }

    /// A Dynamic around a Str, in Parens or in a Root or in neither, or around anything else.
    fn dynamic(&mut self, room: Room) -> Tree {
        let inside = room.inside();
        if !inside.holds(1, 1) || self.rng.chance(50) {
            return self.fixed(DYNAMIC, 1, room.with_nodes(room.nodes.min(8)));
        }
        let wraps = self.rng.below(4).min(inside.nodes - 1).min(inside.depth - 1);
        let mut inner = self.plain_str(Room { nodes: inside.nodes - wraps, depth: inside.depth - wraps });
        for _ in 0..wraps {
            inner = Tree::full(if self.rng.chance(85) { PAREN } else { ROOT }, vec![inner]);
        }
        Tree::full(DYNAMIC, vec![inner])
    }
}

/// The attributes of an entry that bring a name into the set: the first of a path, all of an inherit.
fn bound_attributes(entry: &Tree) -> Vec<&Tree> {
    match entry.kind {
        ATTRPATH_VALUE => entry.kids[0].as_ref().and_then(|path| path.present().next()).into_iter().collect(),
        _ => entry.present().collect(),
    }
}

fn static_text(attribute: &Tree) -> Option<Vec<u8>> {
    match attribute.kind {
        IDENT => Some(attribute.text.clone()),
        STR if attribute.kids.is_empty() => Some(Vec::new()),
        STR if attribute.kids.len() == 1 => attribute.present().find(|part| part.kind == LITERAL_PART).map(|part| part.text.clone()),
        _ => None,
    }
}
