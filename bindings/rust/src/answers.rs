//! What checks and queries answer.

/// What the record check says of a record that it does not refuse.
#[derive(Clone, Copy, Debug, PartialEq, Eq)]
pub enum Verdict {
    /// Sound, with the deepest level.
    Sound(u32),
    /// Not sound: walks over it may be refused, or miss or repeat positions.
    Unsound,
}

/// The positions that a ray passes, in the order of the walk, and the node tests made.
#[derive(Clone, Debug, PartialEq, Eq)]
pub struct AnyHit {
    /// Each position once.
    pub positions: Vec<u32>,
    /// How many nodes were tested.
    pub tests: u32,
}

/// A position and how far along the ray its pane is.
#[derive(Clone, Copy, Debug, PartialEq)]
pub struct Hit {
    /// The position; the index list names its pane.
    pub position: u32,
    /// The distance, negative where the ray begins inside the pane.
    pub distance: f32,
}

/// The nearest of the panes that the walk met, and the node tests made.
#[derive(Clone, Copy, Debug, PartialEq)]
pub struct Closest {
    /// `None` where no pane is nearer than the ray's reach.
    pub hit: Option<Hit>,
    /// How many nodes were tested.
    pub tests: u32,
}

/// What rays lose to the panes that they meet, in thousandths of a decibel, and the node tests made. The totals of the
/// rays add up to those of the panes.
#[derive(Clone, Debug, PartialEq, Eq)]
pub struct Report {
    /// For each ray, what all panes that it meets take from it.
    pub rays: Vec<u64>,
    /// For each pane, what it takes from all rays together.
    pub panes: Vec<u64>,
    /// How many nodes were tested, for all rays.
    pub tests: u64,
}

/// Whether a ray meets no pane nearer than its reach, and the node tests made.
#[derive(Clone, Copy, Debug, PartialEq, Eq)]
pub struct Miss {
    /// True where nothing is in the way.
    pub missed: bool,
    /// How many nodes were tested.
    pub tests: u32,
}
