//! Added to the copy by the judge: the number of nodes of a pool, its free list, a copy,
//! and a pool made of given nodes.

extern crate std;

use super::{Forest, NodeData, NodePool};
use std::vec::Vec;

/// Number of nodes that were ever in use.
pub(crate) fn len<F: Forest>(pool: &NodePool<F>) -> usize {
    pool.nodes.len()
}

/// The free nodes, the next to be taken first.
pub(crate) fn free_list<F: Forest>(pool: &NodePool<F>) -> Vec<u32> {
    let mut list = Vec::new();
    let mut at = pool.freelist;
    while let Some(node) = at {
        list.push(node.0);
        at = match pool[node] {
            NodeData::Free { next } => next,
            _ => panic!("{node} is in the free list and in use"),
        };
    }
    list
}

/// The same nodes again.
pub(crate) fn copy<F: Forest>(pool: &NodePool<F>) -> NodePool<F> {
    NodePool { nodes: pool.nodes.clone(), freelist: pool.freelist }
}

/// A pool of these nodes, of which those in `free` are free, the next to be taken first.
pub(crate) fn made<F: Forest>(nodes: Vec<NodeData<F>>, free: &[u32]) -> NodePool<F> {
    let mut pool = NodePool::new();
    for node in nodes {
        pool.nodes.push(node);
    }
    for number in free.iter().rev() {
        pool.nodes[super::Node(*number)] = NodeData::Free { next: pool.freelist };
        pool.freelist = Some(super::Node(*number));
    }
    pool
}
