//! The sample tree of the requirements.
use funnelcress::{Link, Node, Pane, Tree};

/// The boxes of its leaves.
pub const PANES: [Pane; 2] = [[0.0, 0.0, 0.0, 1.0, 1.0, 1.0], [2.0, 0.0, 0.0, 3.0, 1.0, 1.0]];

pub fn node(min: [f32; 3], max: [f32; 3], link: Link) -> Node {
    Node { min, max, link }
}

/// T: a root over two leaves.
pub fn sample() -> Tree {
    let nodes = [
        node([0.0; 3], [3.0, 1.0, 1.0], Link::Inner(1)),
        node([0.0; 3], [1.0; 3], Link::Leaf(0)),
        node([2.0, 0.0, 0.0], [3.0, 1.0, 1.0], Link::Leaf(1)),
    ];
    Tree::from_nodes(&nodes, vec![0, 1]).unwrap()
}
