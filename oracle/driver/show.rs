//! What the program `showrecord` prints for its input: the record of a tree in words, or the number of its refusal.
use crate::accept::{Room, conversion_refusal};
use crate::conversions::some_tree;
use crate::convert::{Converted, convert};
use crate::corners::{past_bound, relinked, stretched};
use crate::generate::{BOXES, Boxes, SHAPES, chain, tree};
use crate::rng::Rng;
use crate::store::*;
use crate::tree::{Tree, sample_tree};

/// A line for each node with its bytes in hexadecimal digits, then the list.
pub fn shown(c: &Converted) -> String {
    let mut out = String::new();
    for (i, node) in c.record.chunks(80).enumerate() {
        out += &format!("{i} ");
        node.iter().for_each(|b| out += &format!("{b:02x}"));
        out += "\n";
    }
    out += "indices";
    c.list.iter().for_each(|x| out += &format!(" {x}"));
    out + "\n"
}

fn read(input: &[u8]) -> Result<(Tree, u32, bool), u32> {
    let word = |i: usize| input.get(4 * i..4 * i + 4).map(|b| u32::from_le_bytes(b.try_into().unwrap()));
    let n = word(0).ok_or(1u32)? as usize;
    if n > 256 {
        return Err(2);
    }
    let nodes = if n == 0 { 0 } else { 7 * (2 * n - 1) };
    if input.len() != 4 * (3 + nodes + n) {
        return Err(1);
    }
    let at = |i: usize| word(i).unwrap();
    if at(2) > 1 {
        return Err(3);
    }
    let part = |from: usize, count: usize| (from..from + count).map(at).collect();
    Ok((Tree { nodes: part(3, nodes), indices: part(3 + nodes, n) }, at(1), at(2) == 1))
}

fn record(input: &[u8]) -> Result<Converted, u32> {
    let (t, limit, order) = read(input)?;
    match conversion_refusal(&t, limit, Room::needed(t.indices.len())) {
        0 => {}
        number => return Err(number),
    }
    let c = convert(&t, limit, order);
    if c.deepest > 31 { Err(8) } else { Ok(c) }
}

pub fn showrecord(input: &[u8]) -> String {
    match record(input) {
        Ok(c) => shown(&c),
        Err(number) => format!("refused {number}\n"),
    }
}

/// The decision words and cost bits of each node of the tree, a line each.
pub fn tables(input: &[u8]) -> String {
    let Ok(c) = record(input) else { return String::new() };
    let line = |(d, c): (&[u32], &[u32])| {
        let pairs: Vec<String> = d.iter().zip(c).map(|(d, c)| format!("{d:08x}:{c:08x}")).collect();
        pairs.join(" ") + "\n"
    };
    c.decisions.chunks(7).zip(c.costs.chunks(7)).map(line).collect()
}

pub fn input_of(t: &Tree, limit: u32, order: u32) -> Vec<u8> {
    let mut words = vec![t.indices.len() as u32, limit, order];
    words.extend(&t.nodes);
    words.extend(&t.indices);
    words.iter().flat_map(|w| w.to_le_bytes()).collect()
}

/// Bytes of input, bytes of output; then both, each filled up to whole words.
fn case(input: &[u8]) -> Vec<u32> {
    let output = showrecord(input);
    let mut w = vec![input.len() as u32, output.len() as u32];
    w.extend(words_of(input));
    w.extend(words_of(output.as_bytes()));
    w
}

pub fn groups(seed: u64) -> Vec<Group> {
    let mut rng = Rng::new(seed);
    let rng = &mut rng;
    let mut g = Group::new(SHOWRECORD, 0);
    let t = input_of(&sample_tree(), 3, 0);
    for cut in [0, 1, 3, 4, 11, 12, t.len() - 4, t.len() - 1, t.len()] {
        g.add(case(&t[..cut]));
    }
    let most = input_of(&tree(rng, 256, SHAPES[1], BOXES[2]), 1, 0);
    g.add(case(&most));
    for more in [1, 3, 4, 28, 400] {
        let zeros = vec![0; more];
        g.add(case(&[t.clone(), zeros.clone()].concat()));
        g.add(case(&[input_of(&Tree::default(), 3, 1), zeros.clone()].concat()));
        g.add(case(&[input_of(&sample_tree(), 4, 2), zeros].concat()));
    }
    g.add(case(&[most.clone(), vec![0]].concat()));
    g.add(case(&most[..most.len() - 1]));
    g.add(case(&[257u32.to_le_bytes().to_vec(), most[4..].to_vec()].concat()));
    for (n, limit, order) in [(0u32, 3u32, 0u32), (0, 4, 1), (0, 0, 2), (256, 0, 0), (257, 9, 9), (u32::MAX, 0, 0)] {
        g.add(case(&[n, limit, order].iter().flat_map(|w| w.to_le_bytes()).collect::<Vec<_>>()));
    }
    for limit in 0..5 {
        for order in 0..3 {
            g.add(case(&input_of(&sample_tree(), limit, order)));
        }
    }
    for (k, t) in relinked().iter().chain(&stretched(past_bound())).enumerate() {
        g.add(case(&input_of(t, k as u32 % 4, k as u32 % 2)));
    }
    g.add(case(&input_of(&chain(33, Boxes::Point), 3, 0)));
    g.add(case(&input_of(&chain(34, Boxes::Point), 3, 0)));
    g.add(case(&input_of(&tree(rng, 256, SHAPES[0], BOXES[0]), 3, 1)));
    for k in 0..60 {
        let mut input = input_of(&some_tree(rng, k), rng.below(4) as u32, rng.below(2) as u32);
        if k % 4 == 3 {
            let at = 12 + rng.below(input.len() - 12);
            input[at] ^= 1 << rng.below(8);
        }
        g.add(case(&input));
    }
    vec![g]
}
