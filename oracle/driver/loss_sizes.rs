//! Stored losses by lengths: records, index words, losses, rays and lent slices at their largest lengths. Each list has one word,
//! or one ray, all through, so that neither the lists nor the totals need be stored.
use crate::accept::{MOST_LEAVES, MOST_NODES};
use crate::causes::put_last_positions;
use crate::loss::{Call, MOST_LOSS, MOST_RAYS, RayLoss, Report, Reported, two_words};
use crate::losses::{sample, sample_rays};
use crate::scene::ray_words;
use crate::store::*;
use obvhs::ray::Ray;

pub const MOST_BYTES: usize = 80 * MOST_NODES;

/// The words of a case.
const WIDTH: usize = 48;

/// A call whose lists are alike all through, and can be given other lengths.
pub trait Resizable: Clone {
    /// T with so many rays that meet both positions; nothing is refused.
    fn of(rays: usize) -> Self;

    fn plain(&mut self) -> &mut Alike;

    /// The same with a record of so many bytes.
    fn with_record(self, bytes: usize) -> Self;

    /// The same with a cause beside, in one of its ways.
    fn with_cause(self, cause: u32, way: usize) -> Self;

    /// The report's number.
    fn number(&self) -> u32;

    /// The same with the untimed part changed.
    fn but(mut self, change: impl FnOnce(&mut Alike)) -> Self {
        change(self.plain());
        self
    }
}

#[derive(Clone)]
pub struct Alike {
    /// The first node; all others are zero.
    pub node: Vec<u8>,
    pub bytes: usize,
    pub positions: usize,
    pub panes: usize,
    pub losses: usize,
    pub floats: usize,
    pub ray_room: usize,
    pub pane_room: usize,
    pub index: u32,
    pub loss: u32,
    pub ray: Ray,
}

impl Resizable for Alike {
    /// Index words are 1, and both panes have the most loss.
    fn of(rays: usize) -> Alike {
        Alike {
            node: sample(&[]).record,
            bytes: 80,
            positions: 2,
            panes: 2,
            losses: 2,
            floats: 8 * rays,
            ray_room: rays,
            pane_room: 2,
            index: 1,
            loss: MOST_LOSS,
            ray: sample_rays()[0],
        }
    }

    fn plain(&mut self) -> &mut Alike {
        self
    }

    fn with_record(self, bytes: usize) -> Alike {
        Alike { bytes, ..self }
    }

    fn with_cause(mut self, cause: u32, way: usize) -> Alike {
        match (cause, way) {
            (1, 0) => self.bytes += 1,
            (1, _) => self.floats += 7,
            (4, 0) => self.ray_room -= 1,
            (4, _) => self.pane_room = 1,
            (12, 0) => self.losses = 1,
            (12, _) => self.loss = MOST_LOSS + 1,
            (9, 0) => self.ray.tmax = f32::NAN,
            (9, _) => self.ray.tmin = f32::NAN,
            (_, 0) => self.index = 2,
            _ => self.node[12] = 0,
        }
        self
    }

    fn number(&self) -> u32 {
        self.call().report().refusal
    }
}

impl Alike {
    /// So many panes, each with its loss; index words name the last.
    pub fn with_panes(self, panes: usize) -> Alike {
        Alike { panes, losses: panes, pane_room: panes, index: panes as u32 - 1, ..self }
    }

    pub fn call(&self) -> Call {
        let mut record = self.node.clone();
        record.resize(self.bytes, 0);
        Call {
            record,
            list: vec![self.index; self.positions],
            panes: self.panes,
            losses: vec![self.loss; self.losses],
            rays: ray_words(&self.ray).into_iter().cycle().take(self.floats).collect(),
            ray_room: self.ray_room,
            pane_room: self.pane_room,
        }
    }

    /// The ray; the report's number, its tests, the total of each ray and of the pane that the index word names, all others being 0, in
    /// two words each; the single call's number, sum in two words, and tests; the first node.
    pub fn answers(&self, r: &Report, single: RayLoss) -> Vec<u32> {
        let (ray, pane) = (r.rays.first().copied().unwrap_or(0), r.panes.get(self.index as usize).copied().unwrap_or(0));
        assert!(r.rays.iter().all(|&total| total == ray) && r.panes.iter().sum::<u64>() == pane);
        let mut w = ray_words(&self.ray);
        w.push(r.refusal);
        [r.tests, ray, pane].iter().for_each(|&x| w.extend(two_words(x)));
        w.extend(single.words());
        w.extend(words_of(&self.node));
        w
    }

    /// Bytes of the record, index words, panes, losses, floats of rays, words lent for the totals of rays, and of panes; the index
    /// word, the loss; and the words of `answers`.
    fn case(&self) -> Vec<u32> {
        let call = self.call();
        let r = call.report();
        if r.refusal == 0 {
            assert_eq!(r, call.agreed());
        }
        let sizes = [self.bytes, self.positions, self.panes, self.losses, self.floats, self.ray_room, self.pane_room];
        let mut w: Vec<u32> = sizes.iter().map(|&x| x as u32).collect();
        w.extend([self.index, self.loss]);
        w.extend(self.answers(&r, call.loss(0)));
        w
    }
}

/// Records of so many bytes with so many index words: T's node with zeros behind it, those that `more` makes of the largest, and with its
/// positions the last that there can be.
pub fn records<A: Resizable>(positions: &[usize], bytes: &[usize], more: impl Fn(&A) -> Vec<A>) -> Vec<A> {
    let mut all = vec![];
    for &positions in positions {
        let of = |rays: usize, bytes: usize| A::of(rays).with_record(bytes).but(|a| a.positions = positions);
        all.extend(bytes.iter().map(|&bytes| of(2, bytes)));
        all.extend(more(&of(2, MOST_BYTES)));
        all.push(of(3, MOST_BYTES).but(|a| put_last_positions(&mut a.node)));
    }
    all
}

/// Lists of rays, with words for their totals that are just enough, one less, or some more.
fn rays() -> Vec<Alike> {
    let mut all = vec![Alike { bytes: 0, ..Alike::of(MOST_RAYS) }];
    for rays in [MOST_RAYS - 1, MOST_RAYS, MOST_RAYS + 1] {
        all.push(Alike::of(rays));
        all.push(Alike { floats: 8 * rays + 1, ..Alike::of(rays) });
        all.push(Alike { ray_room: rays - 1, ..Alike::of(rays) });
    }
    all.push(Alike { ray_room: MOST_RAYS + 3, pane_room: 5, ..Alike::of(MOST_RAYS) });
    all
}

/// Panes: there may be more than positions.
fn panes() -> Vec<Alike> {
    let most = MOST_LEAVES + 1;
    let many = Alike::of(2).with_panes(most);
    vec![
        Alike { pane_room: most - 1, ..many.clone() },
        Alike { losses: most - 1, ..many.clone() },
        Alike { losses: most + 1, ..many.clone() },
        Alike { pane_room: most + 2, ..many.clone() },
        Alike { index: most as u32, ..many.clone() },
        Alike { index: 0, ..many.clone() },
        Alike { panes: u32::MAX as usize, ..many.clone() },
        many,
    ]
}

/// Calls refused 2, by their index words, their nodes or their rays; and each of them with causes beside in these ways: 1 comes before it,
/// all others after.
pub fn pairs<A: Resizable>(ways: &[(u32, usize)]) -> Vec<A> {
    let one = A::of(1);
    ways.iter().for_each(|&(cause, way)| assert_eq!(one.clone().with_cause(cause, way).number(), cause));
    let words = one.clone().but(|a| a.positions = MOST_LEAVES + 1);
    let large = vec![words, one.with_record(MOST_BYTES + 80), A::of(MOST_RAYS + 1)];
    let beside = |a: &A| ways.iter().map(|&(cause, way)| (cause, a.clone().with_cause(cause, way))).collect::<Vec<_>>();
    let both: Vec<(u32, A)> = large.iter().flat_map(beside).collect();
    both.iter().for_each(|(cause, a)| assert_eq!(a.number(), *cause.min(&2)));
    large.into_iter().chain(both.into_iter().map(|(_, a)| a)).collect()
}

pub fn group() -> Group {
    let mut g = Group::new(LOSS_SIZES, WIDTH);
    let positions = [0, 1, 2, MOST_LEAVES - 1, MOST_LEAVES, MOST_LEAVES + 1];
    let bytes = [0, 79, 80, 81, MOST_BYTES - 1, MOST_BYTES, MOST_BYTES + 1, MOST_BYTES + 80, MOST_BYTES + 159];
    let ways = [1, 4, 12, 9, 10].iter().flat_map(|&cause| [(cause, 0), (cause, 1)]).collect::<Vec<_>>();
    [records(&positions, &bytes, |_| vec![]), rays(), panes(), pairs(&ways)].concat().iter().for_each(|a| g.add(a.case()));
    g
}
