//! A ray's loss and the report of many rays: what they are asked of, and their answers by the rules and by the published any-hit.
//! The Rust has no sums: its positions are added up in three ways, which must come to the same.
use crate::accept::accepted_ray;
use crate::convert::bvh_of;
use crate::query;
use crate::rng::Rng;
use crate::scene::ray_words;
use crate::store::words_of;
use crate::walk::{self, Answer, Walking};
use crate::walker::size_cause;
use glam::Vec3A;
use obvhs::ray::Ray;

pub const MOST_RAYS: usize = 65536;
pub const MOST_LOSS: u32 = 1_000_000;

/// What a report is asked of. The single call is asked of the same, but for one ray and no words for totals.
#[derive(Clone, Default)]
pub struct Call {
    pub record: Vec<u8>,
    /// An index word for each position.
    pub list: Vec<u32>,
    pub panes: usize,
    pub losses: Vec<u32>,
    /// Floats as words, eight a ray.
    pub rays: Vec<u32>,
    /// The words lent for the totals of rays.
    pub ray_room: usize,
    /// The words lent for the totals of panes.
    pub pane_room: usize,
}

/// The single call's answer: its refusal (0: none), the sum, and its tests.
#[derive(Clone, Copy, Default, PartialEq, Debug)]
pub struct RayLoss {
    pub refusal: u32,
    pub sum: u64,
    pub tests: u32,
}

impl RayLoss {
    /// Its number, its sum in two words, and its tests.
    pub fn words(&self) -> [u32; 4] {
        let [low, high] = two_words(self.sum);
        [self.refusal, low, high, self.tests]
    }
}

/// A report's answer: its refusal, the tests of all rays, and the totals.
#[derive(Clone, Default, PartialEq, Debug)]
pub struct Report {
    pub refusal: u32,
    pub tests: u64,
    pub rays: Vec<u64>,
    pub panes: Vec<u64>,
}

/// A call, untimed or at quarter hours, with its answers by the rules and by the published any-hit.
pub trait Reported: Clone {
    /// Its untimed part.
    fn plain(&self) -> &Call;

    /// A report by the rules.
    fn report(&self) -> Report;

    /// The single call for ray k by the rules.
    fn loss(&self, k: usize) -> RayLoss;

    /// What the published any-hit lists of ray k, where nothing is refused.
    fn any_hit(&self, k: usize) -> Answer;

    fn case(&self) -> Vec<u32>;

    /// The single calls of all whole rays by the rules.
    fn singles(&self) -> Vec<RayLoss> {
        (0..self.plain().count()).map(|k| self.loss(k)).collect()
    }

    /// The report that nothing refuses: over any-hit's lists it must be the rules' one, and so must each single loss.
    fn agreed(&self) -> Report {
        let (report, singles) = self.plain().totalled(|k| self.any_hit(k));
        assert_eq!(report, self.report());
        assert_eq!(singles, self.singles());
        report
    }

    /// Unless refused the totals of rays and of panes, two words each; for each whole ray the single call's number, sum in two words,
    /// and tests.
    fn answers(&self, r: &Report) -> Vec<u32> {
        let totals = r.rays.iter().chain(&r.panes).flat_map(|&total| two_words(total));
        totals.chain(self.singles().iter().flat_map(|single| single.words())).collect()
    }
}

/// Losses of panes: all 0 or all the most, small ones, corners, or any.
fn some_losses(rng: &mut Rng, panes: usize) -> Vec<u32> {
    let kind = rng.below(6);
    let mut one = || match kind {
        0 => 0,
        1 => MOST_LOSS,
        2 => rng.below(5000) as u32,
        3 => rng.pick(&[0, 1, MOST_LOSS - 1, MOST_LOSS]),
        _ => rng.below(MOST_LOSS as usize + 1) as u32,
    };
    (0..panes).map(|_| one()).collect()
}

/// Two words, the low one first.
pub fn two_words(x: u64) -> [u32; 2] {
    [x as u32, (x >> 32) as u32]
}

impl Call {
    /// Losses for the panes that the index words name, with or without some more, these rays, and words enough for the totals.
    pub fn new(rng: &mut Rng, record: &[u8], list: &[u32], rays: &[Ray]) -> Call {
        let named = list.iter().max().map_or(0, |x| *x as usize + 1);
        let panes = rng.pick(&[named, named.max(list.len()), named + 1, named + 3]);
        let losses = some_losses(rng, panes);
        let call = Call { record: record.to_vec(), list: list.to_vec(), panes, losses, ..Default::default() };
        call.with_rays(rays)
    }

    /// The same with these rays, and just as many words as the totals need.
    pub fn with_rays(mut self, rays: &[Ray]) -> Call {
        self.rays = rays.iter().flat_map(ray_words).collect();
        (self.ray_room, self.pane_room) = (rays.len(), self.panes);
        self
    }

    /// The whole rays of the list.
    pub fn count(&self) -> usize {
        self.rays.len() / 8
    }

    /// Ray k as it was drawn.
    pub fn ray(&self, k: usize) -> Ray {
        let f = |i: usize| f32::from_bits(self.rays[8 * k + i]);
        Ray::new(Vec3A::from([f(0), f(1), f(2)]), Vec3A::from([f(3), f(4), f(5)]), f(6), f(7))
    }

    pub fn ray_list(&self) -> Vec<Ray> {
        (0..self.count()).map(|k| self.ray(k)).collect()
    }

    /// No cause 12 holds.
    fn losses_accepted(&self) -> bool {
        self.losses.len() == self.panes && self.losses.iter().all(|&loss| loss <= MOST_LOSS)
    }

    /// The first of causes 1, 2 and 12 of the single call, or 0.
    pub fn loss_lists(&self) -> u32 {
        match size_cause(&self.record, self.list.len()) {
            0 if !self.losses_accepted() => 12,
            number => number,
        }
    }

    /// The first of causes 1, 2, 4 and 12 of a report, or 0.
    pub fn report_lists(&self) -> u32 {
        if self.record.len() % 80 != 0 || self.rays.len() % 8 != 0 {
            return 1;
        }
        if size_cause(&self.record, self.list.len()) == 2 || self.count() > MOST_RAYS {
            return 2;
        }
        if self.ray_room < self.count() || self.pane_room < self.panes {
            return 4;
        }
        if self.losses_accepted() { 0 } else { 12 }
    }

    /// Cause 9 of one of the rays, or 0.
    pub fn ray_cause(&self) -> u32 {
        if self.ray_list().iter().all(accepted_ray) { 0 } else { 9 }
    }

    /// A walk's tests, with each met position's pane noted; or 10, by the walk or by an index word that names no pane.
    fn walked(&self, walk: impl Walking, mut met: impl FnMut(usize)) -> Result<u32, u32> {
        walk::reports(walk, |p| match self.list[p as usize] as usize {
            pane if pane < self.panes => {
                met(pane);
                Ok(())
            }
            _ => Err(10),
        })
    }

    /// What a ray loses by its walk.
    pub fn lost(&self, walk: impl Walking) -> RayLoss {
        let mut sum = 0;
        match self.walked(walk, |pane| sum += self.losses[pane] as u64) {
            Ok(tests) => RayLoss { refusal: 0, sum, tests },
            Err(refusal) => RayLoss { refusal, ..Default::default() },
        }
    }

    /// A report by the walks of its rays.
    pub fn reported<W: Walking>(&self, walk: impl Fn(usize) -> W) -> Report {
        let mut all = Report { panes: vec![0; self.panes], ..Default::default() };
        for k in 0..self.count() {
            let mut sum = 0;
            let walked = self.walked(walk(k), |pane| {
                sum += self.losses[pane] as u64;
                all.panes[pane] += self.losses[pane] as u64;
            });
            match walked {
                Ok(tests) => all.tests += tests as u64,
                Err(refusal) => return Report { refusal, ..Default::default() },
            }
            all.rays.push(sum);
        }
        all
    }

    /// A ray's loss over the positions that any-hit lists, and how often it meets each pane: the losses are added in walk order, in
    /// rising order of the positions, and pane by pane.
    fn added_up(&self, any: Answer) -> (RayLoss, Vec<u64>) {
        let pane = |p: &u32| self.list[*p as usize] as usize;
        let added = |positions: &[u32]| positions.iter().map(|p| self.losses[pane(p)] as u64).sum::<u64>();
        let mut rising = any.found.clone();
        rising.sort();
        let mut met = vec![0; self.panes];
        any.found.iter().for_each(|p| met[pane(p)] += 1);
        let sum = added(&any.found);
        assert_eq!(sum, added(&rising));
        assert_eq!(sum, self.taken(&met).iter().sum::<u64>());
        (RayLoss { refusal: 0, sum, tests: any.tests }, met)
    }

    /// What each pane takes that is met so often.
    fn taken(&self, met: &[u64]) -> Vec<u64> {
        met.iter().zip(&self.losses).map(|(&often, &loss)| often * loss as u64).collect()
    }

    /// A report over any-hit's answers, with the single losses; both totals add up to the same.
    pub fn totalled(&self, any: impl Fn(usize) -> Answer) -> (Report, Vec<RayLoss>) {
        let (mut singles, mut often) = (vec![], vec![0; self.panes]);
        for k in 0..self.count() {
            let (single, met) = self.added_up(any(k));
            singles.push(single);
            often.iter_mut().zip(met).for_each(|(all, m)| *all += m);
        }
        let (rays, panes): (Vec<u64>, Vec<u64>) = (singles.iter().map(|s| s.sum).collect(), self.taken(&often));
        assert_eq!(rays.iter().sum::<u64>(), panes.iter().sum::<u64>());
        let tests = singles.iter().map(|s| s.tests as u64).sum();
        (Report { refusal: 0, tests, rays, panes }, singles)
    }

    /// Bytes of the record, index words, panes, losses, floats of rays, words lent for the totals of rays, and of panes; the
    /// report's number, and its tests in two words.
    fn head(&self, r: &Report) -> Vec<u32> {
        let (record, list, losses, rays) = (self.record.len(), self.list.len(), self.losses.len(), self.rays.len());
        let sizes = [record, list, self.panes, losses, rays, self.ray_room, self.pane_room];
        sizes.iter().map(|&x| x as u32).chain([r.refusal]).chain(two_words(r.tests)).collect()
    }
}

impl Reported for Call {
    fn plain(&self) -> &Call {
        self
    }

    fn report(&self) -> Report {
        match self.report_lists() {
            0 => {}
            refusal => return Report { refusal, ..Default::default() },
        }
        match self.ray_cause() {
            0 => self.reported(|k| walk::begun(&self.record, self.list.len(), &self.ray(k))),
            refusal => Report { refusal, ..Default::default() },
        }
    }

    fn loss(&self, k: usize) -> RayLoss {
        let ray = self.ray(k);
        match self.loss_lists() {
            0 if !accepted_ray(&ray) => RayLoss { refusal: 9, ..Default::default() },
            0 => self.lost(walk::begun(&self.record, self.list.len(), &ray)),
            refusal => RayLoss { refusal, ..Default::default() },
        }
    }

    fn any_hit(&self, k: usize) -> Answer {
        query::any_hit(&bvh_of(&self.record, &self.list), self.ray(k))
    }

    /// The words of `head`; record, index words, losses, floats of rays; and the words of `answers`.
    fn case(&self) -> Vec<u32> {
        let r = self.report();
        let mut w = self.head(&r);
        w.extend(words_of(&self.record));
        [&self.list, &self.losses, &self.rays].iter().for_each(|words| w.extend(*words));
        w.extend(self.answers(&r));
        w
    }
}
