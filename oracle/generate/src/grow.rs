//! Random valid expressions. What brings names, bindings and parameters, is in `bind`.

use crate::names::Names;
use crate::rng::Rng;
use crate::tree::Tree;
use crate::Shape;
use sheet::{kind::*, Node, MAX_DEPTH, MAX_NODES};

/// What a tree may take: so many nodes and so many levels, its own included.
#[derive(Clone, Copy)]
pub struct Room {
    pub nodes: usize,
    pub depth: usize,
}

impl Room {
    pub fn holds(self, nodes: usize, depth: usize) -> bool {
        self.nodes >= nodes && self.depth >= depth
    }

    pub fn with_nodes(self, nodes: usize) -> Room {
        Room { nodes, ..self }
    }

    /// What a node leaves to its kids together.
    pub fn inside(self) -> Room {
        Room { nodes: self.nodes.saturating_sub(1), depth: self.depth.saturating_sub(1) }
    }
}

/// Grows one sheet.
pub struct Grower<'a> {
    pub rng: &'a mut Rng,
    pub names: Names,
    /// The names bound around the place that is being grown, outermost first.
    pub around: Vec<Vec<u8>>,
    absent: u64,
    /// How many of a hundred values are sets.
    pub sets: u64,
}

/// How often each kind of expression is grown where there is room for more than a leaf.
const INNER: [(u64, u8); 16] = [
    (8, APPLY),
    (4, IF_ELSE),
    (8, SELECT),
    (22, WITH),
    (3, HAS_ATTR),
    (4, STR),
    (3, PATH),
    (20, LAMBDA),
    (18, LET_IN),
    (7, LIST),
    (6, BIN_OP),
    (5, PAREN),
    (26, ATTR_SET),
    (4, UNARY_OP),
    (5, ASSERT),
    (3, ROOT),
];

/// The same where there is room for little: the leaves, and inner kinds for the sake of their absent places.
const SMALL: [(u64, u8); 22] = [
    (2, APPLY),
    (1, IF_ELSE),
    (3, SELECT),
    (2, WITH),
    (2, HAS_ATTR),
    (5, STR),
    (2, PATH),
    (4, FLOAT),
    (5, INTEGER),
    (2, URI),
    (3, LAMBDA),
    (3, LET_IN),
    (2, LIST),
    (2, BIN_OP),
    (2, PAREN),
    (5, ATTR_SET),
    (2, UNARY_OP),
    (50, IDENT),
    (2, ASSERT),
    (2, ERROR),
    (1, ROOT),
    (2, LEGACY_LET),
];

/// The nodes of a random valid sheet.
pub fn sheet(rng: &mut Rng, shape: &Shape) -> Vec<Node> {
    let room = Room { nodes: shape.nodes.clamp(1, MAX_NODES), depth: shape.depth.clamp(1, MAX_DEPTH) };
    let names = Names::new(rng, shape.names);
    let sets = if shape.sets { 90 } else { 60 };
    let mut grower = Grower { rng, names, around: Vec::new(), absent: shape.absent, sets };
    let inside = room.inside();
    let kid = match shape.sets && inside.holds(1, 1) {
        true if grower.rng.chance(25) => Some(grower.let_in(inside)),
        true => Some(grower.attr_set(inside)),
        false => grower.expr_place(inside),
    };
    let mut root = Tree::new(ROOT, vec![kid]);
    if shape.exact {
        grower.fill(&mut root, room);
    }
    root.nodes(rng, shape.pointers)
}

impl Grower<'_> {
    /// An expression place, absent at times and where there is no room.
    pub fn expr_place(&mut self, room: Room) -> Option<Tree> {
        (room.holds(1, 1) && !self.leaves_out(room)).then(|| self.expr(room))
    }

    /// Whether a counted place is left absent. Where much room would be lost that is rare.
    pub fn leaves_out(&mut self, room: Room) -> bool {
        let percent = if room.nodes > 4 { self.absent / 10 } else { self.absent };
        self.rng.chance(percent)
    }

    pub fn expr(&mut self, room: Room) -> Tree {
        let roomy = room.nodes > 6 || (room.nodes > 2 && self.rng.chance(50));
        let kind = match roomy && room.depth > 3 {
            true => self.rng.weighted(&INNER),
            false => self.rng.weighted(&SMALL),
        };
        match kind {
            FLOAT => self.float(),
            INTEGER => Tree::leaf(INTEGER).with_text(&self.digits()),
            URI | ERROR | LEGACY_LET => Tree::leaf(kind),
            IDENT => self.reference(),
            STR => Tree::full(STR, self.parts(room)),
            PATH => Tree::full(PATH, self.parts(room)).with_text(&self.names.key(self.rng)),
            SELECT => self.select(room),
            HAS_ATTR => self.has_attr(room),
            WITH => self.with(room),
            LAMBDA => self.lambda(room),
            LET_IN => self.let_in(room),
            LIST => self.list(room),
            ATTR_SET => self.attr_set(room),
            BIN_OP => self.fixed(BIN_OP, 2, room).flagged(self.rng.below(16) as u8),
            UNARY_OP => self.fixed(UNARY_OP, 1, room).flagged(self.rng.below(3) as u8),
            IF_ELSE => self.fixed(IF_ELSE, 3, room),
            PAREN | ROOT => self.fixed(kind, 1, room),
            _ => self.fixed(kind, 2, room),
        }
    }

    /// A kind with so many expression places and nothing else.
    pub fn fixed(&mut self, kind: u8, places: usize, room: Room) -> Tree {
        let kids = self.rooms(room, places).into_iter().map(|room| self.expr_place(room)).collect();
        Tree::new(kind, kids)
    }

    /// The room of each kid: a node for each if that can be, and the rest by chance.
    pub fn rooms(&mut self, room: Room, kids: usize) -> Vec<Room> {
        let inside = room.inside();
        let each = usize::from(inside.nodes >= kids);
        let rest = self.rng.split(inside.nodes - each * kids, kids);
        rest.into_iter().map(|nodes| inside.with_nodes(each + nodes)).collect()
    }

    /// The room of a small first kid and that of a body, which gets most of it: what a With, a Lambda or a let brings
    /// is for its body.
    pub fn body_rooms(&mut self, room: Room, percent: usize) -> (Room, Room) {
        let inside = room.inside();
        let most = (inside.nodes * percent / 100).max(inside.nodes.min(2));
        let first = self.rng.between(0, most);
        (inside.with_nodes(first), inside.with_nodes(inside.nodes - first))
    }

    fn with(&mut self, room: Room) -> Tree {
        let (namespace, body) = self.body_rooms(room, 20);
        let namespace = self.expr_place(namespace);
        Tree::new(WITH, vec![namespace, self.expr_place(body)])
    }

    /// The room of each item of a list: each can hold a node at least.
    pub fn item_rooms(&mut self, inside: Room) -> Vec<Room> {
        let most = if inside.depth == 0 { 0 } else { inside.nodes };
        let most = if self.rng.chance(90) { most.min(6) } else { most.min(60) };
        // Where there is much room an empty list would lose it.
        let items = self.rng.between(if most > 5 { 2 } else { 0 }, most);
        let over = self.rng.split(inside.nodes.saturating_sub(items), items);
        over.into_iter().take(items).map(|nodes| inside.with_nodes(nodes + 1)).collect()
    }

    fn list(&mut self, room: Room) -> Tree {
        let rooms = self.item_rooms(room.inside());
        Tree::full(LIST, rooms.into_iter().map(|room| self.expr(room)).collect())
    }

    fn select(&mut self, room: Room) -> Tree {
        let path = self.selecting_path(room);
        let left = room.with_nodes(room.nodes - path.as_ref().map_or(0, Tree::size));
        let mut select = self.fixed(SELECT, 2, left);
        select.kids.insert(1, path);
        select
    }

    fn has_attr(&mut self, room: Room) -> Tree {
        let path = self.selecting_path(room);
        let left = room.with_nodes(room.nodes - path.as_ref().map_or(0, Tree::size));
        let mut has_attr = self.fixed(HAS_ATTR, 1, left);
        has_attr.kids.push(path);
        has_attr
    }

    fn selecting_path(&mut self, room: Room) -> Option<Tree> {
        let (path, _) = self.body_rooms(room, 50);
        self.path_place(path.with_nodes(path.nodes.min(24)))
    }

    /// Parts of a Str or a Path, interpolated or not.
    pub fn parts(&mut self, room: Room) -> Vec<Tree> {
        let rooms = self.item_rooms(room.inside());
        rooms.into_iter().map(|room| self.part(room)).collect()
    }

    fn part(&mut self, room: Room) -> Tree {
        match self.rng.chance(if room.nodes > 3 { 10 } else { 50 }) {
            true => Tree::leaf(LITERAL_PART).with_text(&self.names.key(self.rng)),
            false => self.fixed(INTERPOLATION, 1, room),
        }
    }

    /// An Ident that refers to something, or one without its flag.
    pub fn reference(&mut self) -> Tree {
        match self.rng.chance(4) {
            true => Tree::leaf(IDENT),
            false => Tree::ident(&self.names.reference(self.rng, &self.around)),
        }
    }

    fn float(&mut self) -> Tree {
        const INFINITY: u64 = 0x7ff0_0000_0000_0000;
        let drawn = self.rng.draw() % (INFINITY + 1);
        let bits = self.rng.pick(&[0, 1, 0x3ff0_0000_0000_0000, INFINITY - 1, INFINITY, drawn]);
        match self.rng.chance(15) {
            true => Tree::leaf(FLOAT),
            false => Tree::leaf(FLOAT).flagged(1).with_text(&bits.to_be_bytes()),
        }
    }

    /// The digits of an Integer: small ones, and those around the largest that has a value.
    fn digits(&mut self) -> Vec<u8> {
        let zeros = if self.rng.chance(30) { self.rng.pick(&[1, 1, 2, 3, 20, 40]) } else { 0 };
        let around = 9_223_372_036_854_775_804 + self.rng.below(8) as u64;
        let digits = match self.rng.below(8) {
            0 | 1 => around.to_string(),
            2 => u64::MAX.to_string(),
            3 => "18446744073709551616".to_string(),
            4 => "9".repeat(self.rng.between(1, 60)),
            5 => "0".to_string(),
            _ => self.rng.below(1_000).to_string(),
        };
        ("0".repeat(zeros) + &digits).into_bytes()
    }

    /// Adds single nodes to lists all over the tree until it has exactly as many as there is room for.
    fn fill(&mut self, root: &mut Tree, room: Room) {
        let hosts = count_lists(root, room.depth);
        if hosts == 0 && room.depth >= 3 && root.size() < room.nodes {
            root.kids[0] = Some(Tree::leaf(LIST));
            return self.fill(root, room);
        }
        let mut shares = vec![0; hosts];
        for _ in root.size()..room.nodes {
            if hosts > 0 {
                shares[self.rng.below(hosts)] += 1;
            }
        }
        self.extend_lists(root, room.depth, &mut shares.into_iter());
    }

    fn extend_lists(&mut self, tree: &mut Tree, depth: usize, shares: &mut std::vec::IntoIter<usize>) {
        let mut own = if is_list(tree, depth) { shares.next().unwrap_or(0) } else { 0 };
        for kid in tree.kids.iter_mut().flatten() {
            self.extend_lists(kid, depth - 1, shares);
        }
        while own > 0 {
            let item = self.item(tree.kind, Room { nodes: own, depth: depth - 1 });
            own -= item.size();
            tree.kids.push(Some(item));
        }
    }

    /// An item for a list of this kind, a small one.
    fn item(&mut self, kind: u8, room: Room) -> Tree {
        match kind {
            STR | PATH => Tree::leaf(LITERAL_PART).with_text(&self.names.key(self.rng)),
            LIST => self.reference(),
            INHERIT => Tree::ident(&self.names.key(self.rng)),
            PATTERN if room.holds(2, 2) => Tree::new(PAT_ENTRY, vec![Some(Tree::ident(&self.names.key(self.rng))), None]),
            PATTERN => Tree::new(PAT_ENTRY, vec![None, None]),
            _ if room.holds(4, 3) => {
                let path = Tree::full(ATTRPATH, vec![Tree::ident(&self.names.key(self.rng))]);
                Tree::full(ATTRPATH_VALUE, vec![path, self.reference()])
            }
            _ if room.holds(2, 2) => Tree::new(INHERIT, vec![None, Some(Tree::ident(&self.names.key(self.rng)))]),
            _ => Tree::new(ATTRPATH_VALUE, vec![None, None]),
        }
    }
}

/// Whether the tree's top is a list that can take one more item, with so many levels from it down.
fn is_list(tree: &Tree, depth: usize) -> bool {
    depth > 1 && matches!(tree.kind, STR | PATH | LIST | ATTR_SET | LET_IN | INHERIT | PATTERN)
}

fn count_lists(tree: &Tree, depth: usize) -> usize {
    usize::from(is_list(tree, depth)) + tree.present().map(|kid| count_lists(kid, depth.saturating_sub(1))).sum::<usize>()
}
