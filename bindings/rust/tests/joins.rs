//! Two trees joined: the samples, what is refused and in which order, and what the joined tree's record meets.
#[path = "common/chain.rs"]
mod chain;
mod common;

use chain::chain;
use common::{PANES, node, sample};
use funnelcress::{Link, Options, Pane, Ray, Refusal, Tree, Verdict};

/// The most that an index word holds.
const MOST: usize = u32::MAX as usize;

/// One leaf with a box and an index word.
fn lone(min: [f32; 3], max: [f32; 3], index: u32) -> Tree {
    Tree::from_nodes(&[node(min, max, Link::Leaf(0))], vec![index]).unwrap()
}

fn empty() -> Tree {
    Tree::from_words(vec![], vec![])
}

fn links(tree: &Tree) -> Vec<u32> {
    tree.words().chunks(7).map(|node| node[6]).collect()
}

fn bits(ends: Pane) -> [u32; 6] {
    ends.map(f32::to_bits)
}

#[test]
fn the_sample_with_itself() {
    let both = sample().join(2, &sample()).unwrap();
    assert_eq!(links(&both), [1, 3, 5, 0x4000_0000, 0x4000_0001, 0x4000_0002, 0x4000_0003]);
    assert_eq!(both.words()[..6], bits([0.0, 0.0, 0.0, 3.0, 1.0, 1.0]));
    assert_eq!(both.indices(), [0, 1, 2, 3]);
    let old = |v: usize| sample().words()[7 * v..7 * v + 6].to_vec();
    let boxes: Vec<Vec<u32>> = both.words().chunks(7).skip(1).map(|node| node[..6].to_vec()).collect();
    assert_eq!(boxes, [old(0), old(0), old(1), old(2), old(1), old(2)]);
}

#[test]
fn one_leaf_with_one() {
    let both = lone([0.0; 3], [1.0; 3], 0).join(1, &lone([2.0, -1.0, 0.0], [3.0, 1.0, 0.5], 0)).unwrap();
    assert_eq!(links(&both), [1, 0x4000_0000, 0x4000_0001]);
    assert_eq!(both.words()[..6], bits([0.0, -1.0, 0.0, 3.0, 1.0, 1.0]));
    assert_eq!(both.indices(), [0, 1]);
}

/// −0.0 stays in an old box, and is +0.0 in the new root's.
#[test]
fn negative_zeros() {
    let zero = lone([-0.0; 3], [-0.0; 3], 0);
    let both = zero.join(1, &zero).unwrap();
    assert_eq!(both.words()[..6], bits([0.0; 6]));
    assert_eq!((&both.words()[7..13], &both.words()[14..20]), (&bits([-0.0; 6])[..], &bits([-0.0; 6])[..]));
}

#[test]
fn with_an_empty_tree() {
    let moved = empty().join(5, &sample()).unwrap();
    assert_eq!((moved.words(), moved.indices()), (sample().words(), &[5, 6][..]));
    for panes in [0, 2, usize::MAX] {
        assert_eq!(sample().join(panes, &empty()), Ok(sample()));
        assert_eq!(empty().join(panes, &empty()), Ok(empty()));
    }
}

#[test]
fn sums_of_32_bits() {
    let with = |index| lone([0.0; 3], [1.0; 3], index);
    for first in [empty(), sample()] {
        assert_eq!(first.join(MOST, &with(0)).unwrap().indices().last(), Some(&u32::MAX));
        assert_eq!(first.join(1, &with(u32::MAX - 1)).unwrap().indices().last(), Some(&u32::MAX));
        for (panes, index) in [(MOST, 1), (1, u32::MAX), (MOST + 1, 0), (usize::MAX, 1), (usize::MAX, u32::MAX)] {
            assert_eq!(first.join(panes, &with(index)), Err(Refusal::IndexSum));
        }
    }
    assert!(Tree::from_words(sample().words().to_vec(), vec![u32::MAX; 2]).join(0, &with(0)).is_ok());
}

/// 127 edges are allowed, the new root's counted; next to an empty tree there is none.
#[test]
fn depths() {
    for (n, other, fits) in [(127, sample(), true), (128, sample(), false), (128, empty(), true), (129, empty(), false)]
    {
        for joined in [chain(n).join(n as usize, &other), other.join(2, &chain(n))] {
            assert_eq!(joined.err(), if fits { None } else { Some(Refusal::Structure) }, "{n}");
        }
    }
}

/// Words and index words of trees of so many leaves, by their lengths alone.
fn sized(n: usize) -> Tree {
    Tree::from_words(vec![0; funnelcress::Lengths::of(n).words], vec![0; n])
}

#[test]
fn leaves() {
    for (n, m) in [(65_537, 0), (0, 65_537), (65_536, 1), (1, 65_536), (40_000, 40_000)] {
        assert_eq!(sized(n).join(n, &sized(m)).err(), Some(Refusal::TooMany));
    }
    let panes: Vec<Pane> = (0..32_768).map(|k| [k as f32, 0.0, 0.0, k as f32, 1.0, 1.0]).collect();
    let half = Tree::over(&panes);
    let both = half.join(panes.len(), &half).unwrap();
    assert_eq!((both.indices().len(), both.words().len()), (65_536, 7 * 131_071));
    let record = both.convert(Options::default()).unwrap();
    assert!(matches!(record.check(), Ok(Verdict::Sound(_))));
}

/// The sample with something wrong, for each cause that a tree has.
fn spoilt(cause: u32) -> Tree {
    let (mut words, indices) = (sample().words().to_vec(), sample().indices().to_vec());
    match cause {
        1 => words.truncate(20),
        5 => words[6] = 2 << 30,
        6 => words[0] = f32::NAN.to_bits(),
        7 => words[20] = 1 << 30,
        _ => return Tree::from_words(words, vec![0, u32::MAX]),
    }
    Tree::from_words(words, indices)
}

/// The lesser number of two causes is given, whichever tree has which; 13 is of the second alone.
#[test]
fn refusals() {
    let causes = [1, 5, 6, 7];
    let refused = |first: &Tree, second: &Tree| first.join(2, second).unwrap_err().number();
    for first in causes {
        assert_eq!((refused(&spoilt(first), &sample()), refused(&sample(), &spoilt(first))), (first, first));
        assert_eq!((refused(&spoilt(first), &empty()), refused(&empty(), &spoilt(first))), (first, first));
        for second in causes {
            assert_eq!(refused(&spoilt(first), &spoilt(second)), first.min(second));
        }
        assert_eq!(refused(&spoilt(first), &spoilt(13)), first);
    }
    assert_eq!(refused(&sample(), &spoilt(13)), 13);
    assert_eq!(refused(&chain(128), &spoilt(13)), 7);
    assert_eq!((refused(&sized(65_537), &spoilt(1)), refused(&sized(65_537), &spoilt(5))), (1, 2));
    assert!(spoilt(13).join(2, &sample()).is_ok());
}

/// Rays through both houses meet the panes of both, each under its new number.
#[test]
fn the_joined_house() {
    let far: Vec<Pane> = PANES.iter().map(|p| [p[0] + 10.0, p[1], p[2], p[3] + 10.0, p[4], p[5]]).collect();
    let record = Tree::over(&PANES).join(2, &Tree::over(&far)).unwrap().convert(Options::default()).unwrap();
    let panes = [&PANES[..], &far].concat();
    let along = Ray::new([-1.0, 0.5, 0.5], [1.0, 0.0, 0.0]);
    let mut met = record.any_hit(&along).unwrap().positions;
    met.iter_mut().for_each(|position| *position = record.indices()[*position as usize]);
    met.sort();
    assert_eq!(met, [0, 1, 2, 3]);
    let hit = record.closest(&panes, &along.starting(4.5)).unwrap().hit.unwrap();
    assert_eq!((record.indices()[hit.position as usize], hit.distance), (2, 11.0));
    let report = record.report(4, &[1, 10, 100, 1000], &[along]).unwrap();
    assert_eq!((report.rays, report.panes), (vec![1111], vec![1, 10, 100, 1000]));
}
