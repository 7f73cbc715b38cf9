//! Strongly connected components.

use crate::{
    graph::{DiGraph, NodeIndex},
    record,
};

/// The strongly connected components, each after all that it points to. The order inside a component is not promised.
pub fn tarjan_scc<N, E>(graph: &DiGraph<N, E>) -> Vec<Vec<NodeIndex>> {
    record::put_edges(graph.edges_as_added());
    let mut search = Search::over(graph);
    for node in 0..graph.node_count() {
        if search.met[node].is_none() {
            search.from(node);
        }
    }
    search.components
}

/// A node whose targets are being gone through.
struct Open {
    node: usize,
    next_target: usize,
}

struct Search {
    /// Targets of each node, the last added first.
    targets: Vec<Vec<usize>>,
    /// When each node was met.
    met: Vec<Option<usize>>,
    /// The earliest meeting known to be within reach, while the node's component is unfinished.
    low: Vec<usize>,
    /// Whether a node's component is still unfinished; the same nodes as in `waiting`.
    is_waiting: Vec<bool>,
    waiting: Vec<usize>,
    components: Vec<Vec<NodeIndex>>,
    clock: usize,
}

impl Search {
    fn over<N, E>(graph: &DiGraph<N, E>) -> Self {
        let count = graph.node_count();
        let mut targets = vec![Vec::new(); count];
        for &(from, to) in graph.edges_as_added().iter().rev() {
            targets[from].push(to);
        }
        Search {
            targets,
            met: vec![None; count],
            low: vec![0; count],
            is_waiting: vec![false; count],
            waiting: Vec::new(),
            components: Vec::new(),
            clock: 0,
        }
    }

    fn from(&mut self, start: usize) {
        let mut path = vec![self.meet(start)];
        while let Some(open) = path.last_mut() {
            let node = open.node;
            let Some(&target) = self.targets[node].get(open.next_target) else {
                path.pop();
                self.leave(node);
                if let Some(above) = path.last() {
                    self.low[above.node] = self.low[above.node].min(self.low[node]);
                }
                continue;
            };
            open.next_target += 1;
            match self.met[target] {
                None => path.push(self.meet(target)),
                Some(when) if self.is_waiting[target] => self.low[node] = self.low[node].min(when),
                Some(_) => {}
            }
        }
    }

    fn meet(&mut self, node: usize) -> Open {
        self.met[node] = Some(self.clock);
        self.low[node] = self.clock;
        self.clock += 1;
        self.is_waiting[node] = true;
        self.waiting.push(node);
        Open { node, next_target: 0 }
    }

    /// A node that reaches nothing earlier closes its component: itself and all that has waited since it was met.
    fn leave(&mut self, node: usize) {
        if self.met[node] != Some(self.low[node]) {
            return;
        }
        let start = self.waiting.iter().rposition(|&other| other == node).unwrap_or(0);
        let members = self.waiting.split_off(start);
        for &member in &members {
            self.is_waiting[member] = false;
        }
        self.components.push(members.into_iter().map(NodeIndex::new).collect());
    }
}
