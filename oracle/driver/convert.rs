//! The published conversion, with its record as bytes, its tables as words, and the levels of its nodes.
use crate::tree::Tree;
use obvhs::cwbvh::bvh2_to_cwbvh::{Bvh2Converter, Decision, DecisionKind, bvh2_to_cwbvh};
use obvhs::cwbvh::{CwBvh, node::CwBvhNode};

pub struct Converted {
    pub record: Vec<u8>,
    pub list: Vec<u32>,
    pub decisions: Vec<u32>,
    pub costs: Vec<u32>,
    pub deepest: u32,
}

fn decision_word(d: &Decision) -> u32 {
    let kind = match d.kind {
        DecisionKind::LEAF => 0,
        DecisionKind::INTERNAL => 1,
        DecisionKind::DISTRIBUTE => 2,
    };
    kind << 30 | (d.distribute_left as u32) << 8 | d.distribute_right as u32
}

/// The published node as its 80 bytes: the struct is repr(C), without padding.
pub fn record_of(nodes: &[CwBvhNode]) -> Vec<u8> {
    assert_eq!(size_of::<CwBvhNode>(), 80);
    let bytes = unsafe { std::slice::from_raw_parts(nodes.as_ptr() as *const u8, 80 * nodes.len()) };
    bytes.to_vec()
}

/// The published nodes of a record's bytes.
pub fn nodes_of(record: &[u8]) -> Vec<CwBvhNode> {
    let mut nodes = vec![CwBvhNode::default(); record.len() / 80];
    unsafe { std::ptr::copy_nonoverlapping(record.as_ptr(), nodes.as_mut_ptr() as *mut u8, 80 * nodes.len()) };
    nodes
}

/// The published record of bytes and list. With `uses_spatial_splits` its `validate` compares no primitive's box.
pub fn bvh_of(record: &[u8], list: &[u32]) -> CwBvh {
    CwBvh {
        nodes: nodes_of(record),
        primitive_indices: list.to_vec(),
        uses_spatial_splits: true,
        ..Default::default()
    }
}

/// The deepest level of a record whose child ranges start past the node's own number.
pub fn deepest_level(nodes: &[CwBvhNode]) -> u32 {
    let mut level = vec![0; nodes.len()];
    for (i, node) in nodes.iter().enumerate() {
        for k in 0..node.imask.count_ones() as usize {
            level[node.child_base_idx as usize + k] = level[i] + 1;
        }
    }
    level.into_iter().max().unwrap_or(0)
}

pub fn convert(tree: &Tree, limit: u32, order: bool) -> Converted {
    let bvh2 = tree.bvh2();
    let whole = bvh2_to_cwbvh(&bvh2, limit, order, false);
    if bvh2.nodes.is_empty() {
        assert!(whole.nodes.is_empty() && whole.primitive_indices.is_empty());
        return Converted { record: vec![], list: vec![], decisions: vec![], costs: vec![], deepest: 0 };
    }
    let mut c = Bvh2Converter::new(&bvh2, order, false);
    c.calculate_cost(limit);
    c.convert_to_cwbvh();
    let record = record_of(&c.nodes);
    assert!(record == record_of(&whole.nodes) && c.primitive_indices == whole.primitive_indices);
    Converted {
        record,
        list: c.primitive_indices.clone(),
        decisions: c.decisions.iter().map(decision_word).collect(),
        costs: c.decisions.iter().map(|d| d.cost.to_bits()).collect(),
        deepest: deepest_level(&c.nodes),
    }
}
