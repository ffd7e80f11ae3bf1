//! Binary trees of boxes, as words.
use crate::lengths::Lengths;
use crate::record::{Options, Pane, Record};
use crate::refusal::Refusal;
use crate::sys::{self, Number};
use std::fmt;

/// Where a node leads.
#[derive(Clone, Copy, Debug, PartialEq, Eq)]
pub enum Link {
    /// The first of its two children; the other follows it.
    Inner(u32),
    /// A position in the index list.
    Leaf(u32),
}

/// A node: its box and its link.
#[derive(Clone, Copy, Debug, PartialEq)]
pub struct Node {
    /// The lower corner.
    pub min: [f32; 3],
    /// The upper corner.
    pub max: [f32; 3],
    /// Where it leads.
    pub link: Link,
}

/// A node as obvhs has it: a leaf where `prim_count` is not 0.
#[derive(Clone, Copy, Debug, PartialEq)]
pub struct ObvhsNode {
    /// The lower corner.
    pub min: [f32; 3],
    /// The upper corner.
    pub max: [f32; 3],
    /// How many primitives it holds, 0 for an inner node.
    pub prim_count: u32,
    /// The first child, or the first primitive's place in the index list.
    pub first_index: u32,
}

/// Nodes that can't be written as words.
#[derive(Clone, Copy, Debug, PartialEq, Eq)]
#[non_exhaustive]
pub enum TreeError {
    /// A leaf with several primitives.
    ManyPrimitives {
        /// Which node.
        node: usize,
        /// How many it holds.
        count: u32,
    },
    /// A link of more than 30 bits.
    LinkTooLarge {
        /// Which node.
        node: usize,
    },
}

impl fmt::Display for TreeError {
    fn fmt(&self, f: &mut fmt::Formatter<'_>) -> fmt::Result {
        match self {
            TreeError::ManyPrimitives { node, count } => write!(
                f,
                "node {node} is a leaf of {count} primitives, and a leaf here holds exactly one; build the tree with one \
                 primitive a leaf (in obvhs without the step that collapses leaves)"
            ),
            TreeError::LinkTooLarge { node } => write!(f, "node {node} has a link of more than 30 bits"),
        }
    }
}

impl std::error::Error for TreeError {}

/// A binary tree of boxes over the positions of an index list: seven words a node, the first node the root.
#[derive(Clone, Debug, PartialEq, Eq)]
pub struct Tree {
    words: Vec<u32>,
    indices: Vec<u32>,
}

impl Tree {
    /// A tree of boxes and links.
    ///
    /// ```
    /// use funnelcress::{Link, Node, Options, Tree};
    ///
    /// let node = |x0, x1, link| Node { min: [x0, 0.0, 0.0], max: [x1, 1.0, 1.0], link };
    /// let nodes = [node(0.0, 3.0, Link::Inner(1)), node(0.0, 1.0, Link::Leaf(0)), node(2.0, 3.0, Link::Leaf(1))];
    /// let record = Tree::from_nodes(&nodes, vec![0, 1]).unwrap().convert(Options::default()).unwrap();
    /// assert_eq!(record.bytes()[12..15], [121, 120, 120]);
    /// ```
    pub fn from_nodes(nodes: &[Node], indices: Vec<u32>) -> Result<Tree, TreeError> {
        let mut words = Vec::with_capacity(7 * nodes.len());
        for (number, node) in nodes.iter().enumerate() {
            let (kind, index) = match node.link {
                Link::Inner(child) => (0, child),
                Link::Leaf(position) => (1, position),
            };
            if index >= 1 << 30 {
                return Err(TreeError::LinkTooLarge { node: number });
            }
            words.extend(node.min.iter().chain(&node.max).map(|x| x.to_bits()));
            words.push(kind << 30 | index);
        }
        Ok(Tree { words, indices })
    }

    /// A tree of obvhs' nodes and its primitive indices, as in `Tree::from_obvhs(&nodes, bvh2.primitive_indices)` where
    /// each node's `aabb.min`, `aabb.max`, `prim_count` and `first_index` were copied.
    ///
    /// ```
    /// use funnelcress::{ObvhsNode, Tree, TreeError};
    ///
    /// let leaf = ObvhsNode { min: [0.0; 3], max: [1.0; 3], prim_count: 4, first_index: 0 };
    /// assert_eq!(Tree::from_obvhs(&[leaf], vec![0, 1, 2, 3]), Err(TreeError::ManyPrimitives { node: 0, count: 4 }));
    /// ```
    pub fn from_obvhs(nodes: &[ObvhsNode], indices: Vec<u32>) -> Result<Tree, TreeError> {
        let linked = |(number, node): (usize, &ObvhsNode)| {
            let link = match node.prim_count {
                0 => Link::Inner(node.first_index),
                1 => Link::Leaf(node.first_index),
                count => return Err(TreeError::ManyPrimitives { node: number, count }),
            };
            Ok(Node { min: node.min, max: node.max, link })
        };
        let nodes = nodes.iter().enumerate().map(linked).collect::<Result<Vec<Node>, TreeError>>()?;
        Tree::from_nodes(&nodes, indices)
    }

    /// A tree of words kept before, seven a node. They are looked at as the tree is converted or joined.
    pub fn from_words(words: Vec<u32>, indices: Vec<u32>) -> Tree {
        Tree { words, indices }
    }

    /// A plain tree over panes, halved again and again by their centres along the longest side of the box around them. For large models
    /// build one with obvhs, whose trees are quicker to walk; answers are as sure over either.
    pub fn over(panes: &[Pane]) -> Tree {
        let mut order: Vec<u32> = (0..panes.len() as u32).collect();
        let mut nodes = Vec::with_capacity(2 * panes.len());
        if !panes.is_empty() {
            nodes.push(None);
            halve(panes, &mut order, 0, 0, &mut nodes);
        }
        let nodes: Vec<Node> = nodes.into_iter().flatten().collect();
        Tree::from_nodes(&nodes, order).expect("fewer than 2^30 panes")
    }

    /// The words, seven a node.
    pub fn words(&self) -> &[u32] {
        &self.words
    }

    /// The index words.
    pub fn indices(&self) -> &[u32] {
        &self.indices
    }

    /// Converts the tree to a record.
    pub fn convert(&self, options: Options) -> Result<Record, Refusal> {
        self.convert_by(options.limit, u32::from(options.ordered))
    }

    /// The same for any leaf limit and any order, 0 for off and 1 for on: others are refused.
    pub fn convert_by(&self, limit: u32, order: u32) -> Result<Record, Refusal> {
        Record::convert(self, limit, order)
    }

    /// This tree and a second one under a new root, whose box is the union of theirs: this tree's leaves, then the second's.
    /// `first_panes` is how many panes this tree is over. It is added to each index word of the second, whose panes are so
    /// counted on from this tree's. Next to an empty tree the other stays as it is.
    ///
    /// ```
    /// use funnelcress::Tree;
    ///
    /// let house = Tree::over(&[[0.0, 0.0, 0.0, 1.0, 1.0, 1.0], [2.0, 0.0, 0.0, 3.0, 1.0, 1.0]]);
    /// let annex = Tree::over(&[[4.0, 0.0, 0.0, 9.0, 1.0, 1.0]]);
    /// let both = house.join(2, &annex)?;
    /// assert_eq!(both.indices(), [0, 1, 2]);
    /// assert_eq!(both.words()[3], 9f32.to_bits());
    /// # Ok::<(), funnelcress::Refusal>(())
    /// ```
    pub fn join(&self, first_panes: usize, second: &Tree) -> Result<Tree, Refusal> {
        let most = |n: usize| n.min(crate::MAX_POSITIONS);
        let (n, m) = (most(self.indices.len()), most(second.indices.len()));
        let needed = Lengths::of(most(n + m));
        let mut marks = vec![0u32; Lengths::marks(n, m)];
        let mut words = vec![0u32; needed.words];
        let mut indices = vec![0u32; needed.list];
        // SAFETY: each pointer is a slice's and has its length beside it, and no slice that is written overlaps another.
        let number = unsafe {
            sys::funnelcress_join(
                self.words.as_ptr(),
                self.words.len(),
                self.indices.as_ptr(),
                self.indices.len(),
                first_panes,
                second.words.as_ptr(),
                second.words.len(),
                second.indices.as_ptr(),
                second.indices.len(),
                marks.as_mut_ptr(),
                marks.len(),
                words.as_mut_ptr(),
                words.len(),
                indices.as_mut_ptr(),
                indices.len(),
            )
        };
        Refusal::unless(Number(number))?;
        Ok(Tree { words, indices })
    }
}

/// The box around all of some panes.
fn around(panes: &[Pane], of: &[u32]) -> Pane {
    let mut all = panes[of[0] as usize];
    for pane in of.iter().map(|i| panes[*i as usize]) {
        for k in 0..3 {
            all[k] = all[k].min(pane[k]);
            all[k + 3] = all[k + 3].max(pane[k + 3]);
        }
    }
    all
}

/// Fills node `at` for the panes of `part`, which stand from position `first` on.
fn halve(panes: &[Pane], part: &mut [u32], first: u32, at: usize, nodes: &mut Vec<Option<Node>>) {
    let b = around(panes, part);
    let (min, max) = ([b[0], b[1], b[2]], [b[3], b[4], b[5]]);
    if part.len() == 1 {
        nodes[at] = Some(Node { min, max, link: Link::Leaf(first) });
        return;
    }
    let extent = |k: usize| b[k + 3] - b[k];
    let axis = (0..3).max_by(|i, j| extent(*i).total_cmp(&extent(*j))).unwrap_or(0);
    let centre = |i: &u32| panes[*i as usize][axis] + panes[*i as usize][axis + 3];
    part.sort_by(|i, j| centre(i).total_cmp(&centre(j)));
    let child = nodes.len();
    nodes[at] = Some(Node { min, max, link: Link::Inner(child as u32) });
    nodes.extend([None, None]);
    let half = part.len() / 2;
    let (left, right) = part.split_at_mut(half);
    halve(panes, left, first, child, nodes);
    halve(panes, right, first + half as u32, child + 1, nodes);
}
