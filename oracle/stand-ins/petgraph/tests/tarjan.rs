//! The components of random graphs, held against reachability worked out the slow way.

use petgraph::{
    algo::tarjan_scc,
    graph::{DiGraph, NodeIndex},
    record,
};

fn graph(nodes: usize, edges: &[(usize, usize)]) -> DiGraph<usize, ()> {
    let mut graph = DiGraph::with_capacity(nodes, edges.len());
    for node in 0..nodes {
        assert_eq!(graph.add_node(node).index(), node);
    }
    for &(from, to) in edges {
        graph.add_edge(NodeIndex::new(from), NodeIndex::new(to), ());
    }
    graph
}

fn components(nodes: usize, edges: &[(usize, usize)]) -> Vec<Vec<usize>> {
    let found = tarjan_scc(&graph(nodes, edges));
    found.into_iter().map(|members| members.into_iter().map(NodeIndex::index).collect()).collect()
}

/// Which node reaches which, itself included.
fn reach(nodes: usize, edges: &[(usize, usize)]) -> Vec<Vec<bool>> {
    let mut reach = vec![vec![false; nodes]; nodes];
    for (node, row) in reach.iter_mut().enumerate() {
        row[node] = true;
    }
    for &(from, to) in edges {
        reach[from][to] = true;
    }
    for middle in 0..nodes {
        let through = reach[middle].clone();
        for row in reach.iter_mut().filter(|row| row[middle]) {
            row.iter_mut().zip(&through).for_each(|(to, &also)| *to |= also);
        }
    }
    reach
}

fn check(nodes: usize, edges: &[(usize, usize)]) {
    let (found, reach) = (components(nodes, edges), reach(nodes, edges));
    let mut place = vec![usize::MAX; nodes];
    for (at, members) in found.iter().enumerate() {
        for &member in members {
            assert_eq!(place[member], usize::MAX, "node {member} stands twice: {edges:?}");
            place[member] = at;
        }
    }
    for a in 0..nodes {
        for b in 0..nodes {
            assert_eq!(place[a] == place[b], reach[a][b] && reach[b][a], "nodes {a} and {b}: {edges:?}");
            assert!(!reach[a][b] || place[b] <= place[a], "{b} has to come before {a}: {edges:?}");
        }
    }
}

#[test]
fn random_graphs_agree_with_reachability() {
    let mut state = 1_u64;
    let mut random = |below: usize| {
        state = state.wrapping_mul(6364136223846793005).wrapping_add(1442695040888963407);
        (state >> 33) as usize % below
    };
    for _ in 0..3_000 {
        let nodes = 1 + random(9);
        let edges: Vec<_> = (0..random(2 * nodes + 1)).map(|_| (random(nodes), random(nodes))).collect();
        check(nodes, &edges);
    }
}

#[test]
fn a_long_chain_needs_no_deep_stack() {
    let count = 200_000;
    let mut chain: Vec<_> = (1..count).map(|to| (to - 1, to)).collect();
    assert_eq!(components(count, &chain).first(), Some(&vec![count - 1]));
    chain.push((count - 1, 0));
    assert_eq!(components(count, &chain).len(), 1);
}

#[test]
fn a_search_leaves_its_edges_in_the_record() {
    let edges = [(0, 0), (1, 1), (1, 0), (1, 0)];
    tarjan_scc(&graph(2, &edges));
    assert_eq!(record::take_edges(), edges);
    assert!(record::take_edges().is_empty());
}
