//! Trees that both the driver and a program of the gate make by one rule, so that large ones need not be stored; and sums
//! over words, in the place of large answers.
use crate::tree::{Tree, inner, leaf};

/// The middle of a tree's boxes on the y and z axes: a ray along x there meets every one.
pub const MIDDLE: u32 = 4096;

/// How a tree is made: its leaves, a seed, and how far its boxes reach from the middle.
#[derive(Clone, Copy)]
pub struct Made {
    pub n: u32,
    pub seed: u32,
    pub reach: u32,
}

/// 20 bits of a seed and a number.
fn mixed(seed: u32, k: u32) -> u32 {
    let a = (k as u64 * 2654435761 + seed as u64) % (1 << 32);
    let b = (a / 32768 + a * 2246822519) % (1 << 32);
    (b / 4096) as u32
}

impl Made {
    /// Number c of leaf or pane k, below `most`.
    fn some(&self, k: u32, c: u32, most: u32) -> u32 {
        mixed(self.seed, 8 * k + c) % most
    }

    /// The least and greatest ends of leaf k, whole numbers: boxes in a row along x.
    fn ends(&self, k: u32) -> [u32; 6] {
        let x = 16 * k + self.some(k, 0, 16);
        let off = |c: u32| 1 + self.some(k, c, self.reach);
        [x, MIDDLE - off(1), MIDDLE - off(2), x + 1 + self.some(k, 3, 64), MIDDLE + off(4), MIDDLE + off(5)]
    }

    /// The words of leaf k's box.
    fn box_words(&self, k: u32) -> [u32; 6] {
        self.ends(k).map(|x| (x as f32).to_bits())
    }

    /// Node v has children 2v + 1 and 2v + 2, the last n nodes are leaves; leaf k holds position n - 1 - k, whose index word
    /// is 7 (n - 1 - k) modulo n.
    pub fn tree(&self) -> Tree {
        let n = self.n;
        let mut nodes = vec![([0; 6], 0); 2 * n as usize - 1];
        for k in 0..n {
            nodes[(n - 1 + k) as usize] = (self.ends(k), leaf(n - 1 - k));
        }
        for v in (0..n as usize - 1).rev() {
            let (a, b) = (nodes[2 * v + 1].0, nodes[2 * v + 2].0);
            let end = |i: usize| if i < 3 { a[i].min(b[i]) } else { a[i].max(b[i]) };
            nodes[v] = ([0, 1, 2, 3, 4, 5].map(end), inner(2 * v as u32 + 1));
        }
        let words = |(ends, link): ([u32; 6], u32)| ends.into_iter().map(|x| (x as f32).to_bits()).chain([link]);
        Tree { nodes: nodes.into_iter().flat_map(words).collect(), indices: (0..n).map(|p| 7 * p % n).collect() }
    }

    /// The spans of all panes: a first quarter that rises with the pane, to 79 at most and then from the start again, and a last one up
    /// to 16 later.
    pub fn spans(&self) -> Vec<u8> {
        let span = |k: u32| {
            let first = k / 16 % 64 + self.some(k, 6, 17);
            [first as u8, (first + self.some(k, 7, 17)) as u8]
        };
        (0..self.n).flat_map(span).collect()
    }

    /// The boxes of the first leaves, as panes.
    pub fn panes(&self, count: u32) -> Vec<u32> {
        (0..count).flat_map(|k| self.box_words(k)).collect()
    }
}

/// A sum over words in their order.
pub fn digest(words: impl IntoIterator<Item = u32>) -> u32 {
    words.into_iter().fold(0, |sum: u64, w| (sum * 16777619 + w as u64) % (1 << 32)) as u32
}
