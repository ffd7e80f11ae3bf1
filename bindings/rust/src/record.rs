//! Records: converted, checked, asked.
use crate::answers::{AnyHit, Closest, Hit, Miss, Report, Verdict};
use crate::lengths::Lengths;
use crate::ray::Ray;
use crate::refusal::Refusal;
use crate::sys::{self, Number};
use crate::tree::Tree;
use crate::walker::Walker;

/// A pane as a box: min x, y, z, max x, y, z.
pub type Pane = [f32; 6];

/// How a tree is converted.
#[derive(Clone, Copy, Debug, PartialEq, Eq)]
pub struct Options {
    /// The most leaves of a leaf child, at most 3; 0 acts as 1.
    pub limit: u32,
    /// Whether children take the slots that suit the directions of rays. Either way any ray meets the same panes as often,
    /// by as many node tests, and reports are equal; positions and their sequence may differ.
    pub ordered: bool,
}

impl Default for Options {
    fn default() -> Options {
        Options { limit: 3, ordered: true }
    }
}

/// A record of 80-byte nodes with its index list: a position's pane is the one that its index word names.
#[derive(Clone, Debug, PartialEq, Eq)]
pub struct Record {
    bytes: Vec<u8>,
    list: Vec<u32>,
}

impl Record {
    /// A record kept before. Nothing is looked at here: [`Record::check`] says whether it is sound, and a query refuses
    /// what it cannot walk.
    pub fn from_parts(bytes: Vec<u8>, list: Vec<u32>) -> Record {
        Record { bytes, list }
    }

    /// The record's bytes, 80 a node.
    pub fn bytes(&self) -> &[u8] {
        &self.bytes
    }

    /// The index list, a word a position.
    pub fn indices(&self) -> &[u32] {
        &self.list
    }

    /// How many positions there are.
    pub fn positions(&self) -> usize {
        self.list.len()
    }

    pub(crate) fn convert(tree: &Tree, limit: u32, order: u32) -> Result<Record, Refusal> {
        let needed = Lengths::of(tree.indices().len().min(crate::MAX_POSITIONS));
        let mut decisions = vec![0u32; needed.tables];
        let mut costs = vec![0f32; needed.tables];
        let mut bytes = vec![0u8; needed.record];
        let mut list = vec![0u32; needed.list];
        // SAFETY: each pointer is a slice's and has its length beside it, and no two slices overlap.
        let number = unsafe {
            sys::funnelcress_bvh2_to_cwbvh(
                tree.words().as_ptr(),
                tree.words().len(),
                tree.indices().as_ptr(),
                tree.indices().len(),
                limit,
                order,
                decisions.as_mut_ptr(),
                decisions.len(),
                costs.as_mut_ptr(),
                costs.len(),
                bytes.as_mut_ptr(),
                bytes.len(),
                list.as_mut_ptr(),
                list.len(),
            )
        };
        let nodes = Refusal::unless(Number(number))?.held() & 0xffff;
        bytes.truncate(nodes as usize * crate::NODE_BYTES);
        Ok(Record { bytes, list })
    }

    /// The record check.
    pub fn check(&self) -> Result<Verdict, Refusal> {
        let needed = Lengths::check(self.bytes.len(), self.list.len());
        let mut work = vec![0u32; needed.min(crate::MAX_NODES + crate::MAX_POSITIONS)];
        // SAFETY: each pointer is a slice's and has its length beside it.
        let number = unsafe {
            sys::funnelcress_validate(
                self.bytes.as_ptr(),
                self.bytes.len(),
                self.list.len(),
                work.as_mut_ptr(),
                work.len(),
            )
        };
        let answer = Refusal::unless(Number(number))?;
        match answer.kind() {
            0 => Ok(Verdict::Sound(answer.held())),
            _ => Ok(Verdict::Unsound),
        }
    }

    /// The positions that the ray passes.
    pub fn any_hit(&self, ray: &Ray) -> Result<AnyHit, Refusal> {
        let mut positions = vec![0u32; self.list.len().min(64)];
        let (count, tests) = match self.any_hit_into(ray, &mut positions) {
            Err(Refusal::List { needed }) => {
                positions.resize(needed as usize, 0);
                self.any_hit_into(ray, &mut positions)?
            }
            other => other?,
        };
        positions.truncate(count);
        Ok(AnyHit { positions, tests })
    }

    /// The same into a list that is lent: how many positions stand at its front, and the node tests.
    pub fn any_hit_into(&self, ray: &Ray, list: &mut [u32]) -> Result<(usize, u32), Refusal> {
        let floats = ray.to_floats();
        // SAFETY: each pointer is a slice's and has its length beside it; `list` is borrowed for writing, so none overlaps it.
        let number = unsafe {
            sys::funnelcress_any_hit(
                self.bytes.as_ptr(),
                self.bytes.len(),
                self.list.len(),
                floats.as_ptr(),
                floats.len(),
                list.as_mut_ptr(),
                list.len(),
            )
        };
        let answer = Refusal::unless(Number(number))?;
        match answer.kind() {
            0 => Ok((answer.held() as usize, answer.tests())),
            _ => Err(Refusal::List { needed: answer.held() }),
        }
    }

    /// The nearest pane that the walk meets.
    pub fn closest(&self, panes: &[Pane], ray: &Ray) -> Result<Closest, Refusal> {
        let (floats, panes) = (ray.to_floats(), panes.as_flattened());
        let mut distance = [0f32];
        // SAFETY: each pointer is a slice's and has its length beside it, and no two slices overlap.
        let number = unsafe {
            sys::funnelcress_closest(
                self.bytes.as_ptr(),
                self.bytes.len(),
                self.list.as_ptr(),
                self.list.len(),
                panes.as_ptr(),
                panes.len(),
                floats.as_ptr(),
                floats.len(),
                distance.as_mut_ptr(),
                distance.len(),
            )
        };
        let answer = Refusal::unless(Number(number))?;
        let hit = (answer.kind() == 0).then_some(Hit { position: answer.held(), distance: distance[0] });
        Ok(Closest { hit, tests: answer.tests() })
    }

    /// Whether no pane is nearer than the ray's reach.
    pub fn miss(&self, panes: &[Pane], ray: &Ray) -> Result<Miss, Refusal> {
        let (floats, panes) = (ray.to_floats(), panes.as_flattened());
        // SAFETY: each pointer is a slice's and has its length beside it; all are only read.
        let number = unsafe {
            sys::funnelcress_miss(
                self.bytes.as_ptr(),
                self.bytes.len(),
                self.list.as_ptr(),
                self.list.len(),
                panes.as_ptr(),
                panes.len(),
                floats.as_ptr(),
                floats.len(),
            )
        };
        let answer = Refusal::unless(Number(number))?;
        Ok(Miss { missed: answer.kind() == 0, tests: answer.tests() })
    }

    /// What each ray loses to the panes that it meets, and what each of so many panes takes from all rays together. A
    /// pane's loss is a whole number of thousandths of a decibel, and is taken as often as the pane is met.
    ///
    /// A fault of any ray refuses the whole report. Room is lent for as many panes as there are losses, or for 65,536: a
    /// `panes` past both is refused 4 and not 12.
    pub fn report(&self, panes: usize, losses: &[u32], rays: &[Ray]) -> Result<Report, Refusal> {
        let mut ray_totals = vec![0u64; rays.len().min(crate::MAX_RAYS)];
        let mut pane_totals = vec![0u64; panes.min(losses.len().max(crate::MAX_POSITIONS))];
        let tests = self.report_into(panes, losses, rays, &mut ray_totals, &mut pane_totals)?;
        Ok(Report { rays: ray_totals, panes: pane_totals, tests })
    }

    /// The same into totals that are lent, a word for each ray and a word for each pane at their fronts: the node tests.
    pub fn report_into(
        &self,
        panes: usize,
        losses: &[u32],
        rays: &[Ray],
        ray_totals: &mut [u64],
        pane_totals: &mut [u64],
    ) -> Result<u64, Refusal> {
        let floats: Vec<f32> = rays.iter().flat_map(Ray::to_floats).collect();
        // SAFETY: each pointer is a slice's and has its length beside it; the totals are borrowed for writing, so none overlaps them.
        let number = unsafe {
            sys::funnelcress_report(
                self.bytes.as_ptr(),
                self.bytes.len(),
                self.list.as_ptr(),
                self.list.len(),
                panes,
                losses.as_ptr(),
                losses.len(),
                floats.as_ptr(),
                floats.len(),
                ray_totals.as_mut_ptr(),
                ray_totals.len(),
                pane_totals.as_mut_ptr(),
                pane_totals.len(),
            )
        };
        Ok(Refusal::unless(Number(number))?.held().into())
    }

    /// A walker that has the first node before it.
    pub fn walk(&self, ray: &Ray) -> Result<Walker<'_>, Refusal> {
        Walker::begin(self, ray)
    }
}
