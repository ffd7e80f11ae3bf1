//! A tree as one-sided as can be.
use funnelcress::{Link, Node, Tree};

/// A chain of n leaves, all at one point, whose longest path has n − 1 edges.
pub fn chain(n: u32) -> Tree {
    let at = |link| Node { min: [1.0; 3], max: [1.0; 3], link };
    let inner = |k| at(Link::Inner(2 * k + 1));
    let pairs = (1..n).flat_map(|k| [at(Link::Leaf(k - 1)), if k == n - 1 { at(Link::Leaf(k)) } else { inner(k) }]);
    let nodes: Vec<Node> = std::iter::once(inner(0)).chain(pairs).collect();
    Tree::from_nodes(&nodes, (0..n).collect()).unwrap()
}
