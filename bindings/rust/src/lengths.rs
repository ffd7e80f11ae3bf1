//! How long the slices are that conversion, check and join are lent.

/// The bytes of a record node.
pub const NODE_BYTES: usize = 80;
/// The bytes of a side table for a record node.
pub const SIDE_BYTES: usize = 16;
/// The most positions of a record.
pub const MAX_POSITIONS: usize = 65_536;
/// The most nodes of a record.
pub const MAX_NODES: usize = 65_535;
/// The deepest level of a record.
pub const MAX_LEVEL: u32 = 31;
/// The most rays of a report.
pub const MAX_RAYS: usize = 65_536;
/// The greatest loss of a pane, in thousandths of a decibel.
pub const MAX_LOSS: u32 = 1_000_000;

/// The lengths that a tree of n leaves needs.
///
/// ```
/// let needed = funnelcress::Lengths::of(2);
/// assert_eq!((needed.words, needed.tables, needed.record, needed.list, needed.side), (21, 21, 80, 2, 16));
/// assert_eq!((funnelcress::Lengths::of(0).record, funnelcress::Lengths::of(0).side), (0, 0));
/// assert_eq!((funnelcress::Lengths::marks(2, 5), funnelcress::Lengths::marks(0, 0)), (14, 0));
/// ```
#[derive(Clone, Copy, Debug, PartialEq, Eq)]
pub struct Lengths {
    /// Words of the tree.
    pub words: usize,
    /// Decision words, and as many costs.
    pub tables: usize,
    /// Bytes that the record may need.
    pub record: usize,
    /// Index words.
    pub list: usize,
    /// Bytes that the side table may need, where the tree is converted with spans.
    pub side: usize,
}

impl Lengths {
    /// For n leaves.
    pub fn of(n: usize) -> Lengths {
        let nodes = n.saturating_mul(2).saturating_sub(1);
        let record_nodes = if n == 0 { 0 } else { (n - 1).max(1) };
        Lengths {
            words: nodes.saturating_mul(7),
            tables: nodes.saturating_mul(7),
            record: record_nodes.saturating_mul(NODE_BYTES),
            list: n,
            side: record_nodes.saturating_mul(SIDE_BYTES),
        }
    }

    /// The working words of the record check, for a record of so many bytes and n positions.
    pub fn check(record: usize, n: usize) -> usize {
        (record / NODE_BYTES).saturating_add(n)
    }

    /// The working words of a join, for trees of so many leaves.
    pub fn marks(first: usize, second: usize) -> usize {
        first.max(second).saturating_mul(3).saturating_sub(1)
    }
}
