//! A directed graph with a weight at each node and each edge.

use std::{marker::PhantomData, ops::Index};

/// The number of a node, from 0 in the order of adding.
#[derive(Debug, Clone, Copy, PartialEq, Eq, Hash, PartialOrd, Ord)]
pub struct NodeIndex(usize);

impl NodeIndex {
    pub fn new(number: usize) -> Self {
        NodeIndex(number)
    }

    pub fn index(self) -> usize {
        self.0
    }
}

/// The number of an edge, from 0 in the order of adding.
#[derive(Debug, Clone, Copy, PartialEq, Eq, Hash, PartialOrd, Ord)]
pub struct EdgeIndex(usize);

/// Weights of edges are not kept: nobody asks for one.
#[derive(Debug, Clone)]
pub struct DiGraph<N, E> {
    nodes: Vec<N>,
    edges: Vec<(usize, usize)>,
    edge_weight: PhantomData<E>,
}

impl<N, E> DiGraph<N, E> {
    pub fn with_capacity(nodes: usize, edges: usize) -> Self {
        DiGraph { nodes: Vec::with_capacity(nodes), edges: Vec::with_capacity(edges), edge_weight: PhantomData }
    }

    pub fn add_node(&mut self, weight: N) -> NodeIndex {
        self.nodes.push(weight);
        NodeIndex(self.nodes.len() - 1)
    }

    /// Adds an edge, also beside an equal one. As in the real one both ends must be nodes.
    pub fn add_edge(&mut self, from: NodeIndex, to: NodeIndex, _weight: E) -> EdgeIndex {
        assert!(from.0.max(to.0) < self.nodes.len(), "an edge joins two nodes");
        self.edges.push((from.0, to.0));
        EdgeIndex(self.edges.len() - 1)
    }

    pub fn node_count(&self) -> usize {
        self.nodes.len()
    }

    /// Every edge, in the order of adding.
    pub fn edges_as_added(&self) -> &[(usize, usize)] {
        &self.edges
    }
}

impl<N, E> Index<NodeIndex> for DiGraph<N, E> {
    type Output = N;
    fn index(&self, node: NodeIndex) -> &N {
        &self.nodes[node.0]
    }
}
