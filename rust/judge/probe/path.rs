//! Added to the copy by the judge: the parts of a path.

use super::{Forest, MAX_PATH, Path};

/// Size, node numbers and places of a path, unused levels as the crate left them.
pub struct PathParts {
    /// Number of levels in use.
    pub size: usize,
    /// Node numbers from the root down.
    pub nodes: [u32; MAX_PATH],
    /// The place in each node.
    pub places: [u8; MAX_PATH],
}

/// Reads a path.
pub(crate) fn parts<F: Forest>(path: &Path<F>) -> PathParts {
    PathParts { size: path.size, nodes: path.node.map(|n| n.0), places: path.entry }
}
