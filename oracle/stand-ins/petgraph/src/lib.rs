//! Stands in for petgraph: a directed graph, and its strongly connected components by Tarjan's way.
//!
//! As in the real one a component comes after those it points to, the search starts at the nodes in their order, and
//! the edges of a node are gone through from the last added to the first. Different on purpose: the search keeps a list
//! of its own instead of calling itself, and every search leaves the graph's edges in a record, so that they can be
//! seen from outside.

pub mod algo;
pub mod graph;
pub mod record;
