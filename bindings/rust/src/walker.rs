//! A ray walked step by step.
use crate::ray::Ray;
use crate::record::Record;
use crate::refusal::Refusal;
use crate::sys::{self, Number};

/// The words that hold a walker. They are opaque: any words hold some walker, and one that no walk leads to, as one with
/// −0.0 in its ray's origin or direction, is refused 10 as it steps.
#[derive(Clone, Debug, PartialEq, Eq)]
pub struct State {
    /// All but the stack.
    pub head: [u64; 18],
    /// The groups that wait.
    pub stack: [u64; 32],
}

/// What one step did.
#[derive(Clone, Copy, Debug, PartialEq, Eq)]
pub enum Step {
    /// It tested a node.
    Tested(u32),
    /// It reports a position.
    Position(u32),
    /// Nothing is left, now or later.
    Done,
}

/// A walk of a ray through a record: an iterator over the positions that the ray passes, highest first in a node. Told
/// how far off a hit is, it passes over what lies farther.
///
/// ```
/// use funnelcress::{Options, Ray, Tree};
///
/// let panes = [[0.0, 0.0, 0.0, 1.0, 1.0, 1.0], [2.0, 0.0, 0.0, 3.0, 1.0, 1.0]];
/// let record = Tree::over(&panes).convert(Options::default())?;
/// let mut walker = record.walk(&Ray::new([-1.0, 0.5, 0.5], [1.0, 0.0, 0.0]))?;
/// while let Some(position) = walker.next() {
///     let pane = record.indices()[position? as usize];
///     walker.tell(panes[pane as usize][0] + 1.0);
/// }
/// assert_eq!(walker.tests(), 1);
/// # Ok::<(), funnelcress::Refusal>(())
/// ```
#[derive(Clone, Debug)]
pub struct Walker<'a> {
    record: &'a Record,
    state: State,
    tests: u32,
    ended: bool,
}

impl<'a> Walker<'a> {
    pub(crate) fn begin(record: &'a Record, ray: &Ray) -> Result<Walker<'a>, Refusal> {
        let mut state = State { head: [0; 18], stack: [0; 32] };
        let floats = ray.to_floats();
        // SAFETY: the pointers are those of arrays of the lengths that the function has.
        let number = unsafe {
            sys::funnelcress_begin(floats.as_ptr(), floats.len(), state.head.as_mut_ptr(), state.stack.as_mut_ptr())
        };
        Refusal::unless(Number(number))?;
        Ok(Walker::resume(record, state))
    }

    /// A walker that goes on from words kept before.
    pub fn resume(record: &'a Record, state: State) -> Walker<'a> {
        Walker { record, state, tests: 0, ended: false }
    }

    /// One step; a refused one leaves the walker as it was.
    pub fn step(&mut self) -> Result<Step, Refusal> {
        let (bytes, n) = (self.record.bytes(), self.record.positions());
        let State { head, stack } = &mut self.state;
        // SAFETY: as in `begin`, and the record's pointer has its length beside it.
        let number =
            unsafe { sys::funnelcress_step(head.as_mut_ptr(), stack.as_mut_ptr(), bytes.as_ptr(), bytes.len(), n) };
        let answer = Refusal::unless(Number(number))?;
        match answer.kind() {
            0 => {
                self.tests += 1;
                Ok(Step::Tested(answer.held()))
            }
            1 => Ok(Step::Position(answer.held())),
            _ => Ok(Step::Done),
        }
    }

    /// Tells a distance: one from the ray's start on and below the reach becomes the reach, any other does nothing, a NaN too.
    pub fn tell(&mut self, distance: f32) {
        let State { head, stack } = &mut self.state;
        // SAFETY: as in `begin`.
        unsafe { sys::funnelcress_tell(head.as_mut_ptr(), stack.as_mut_ptr(), distance) }
    }

    /// How many nodes this walker has tested since it began or went on.
    pub fn tests(&self) -> u32 {
        self.tests
    }

    /// The words that hold it.
    pub fn state(&self) -> &State {
        &self.state
    }
}

impl Iterator for Walker<'_> {
    type Item = Result<u32, Refusal>;

    /// The next position; after the end, and after a refusal, nothing.
    fn next(&mut self) -> Option<Result<u32, Refusal>> {
        while !self.ended {
            match self.step() {
                Ok(Step::Tested(_)) => {}
                Ok(Step::Position(position)) => return Some(Ok(position)),
                Ok(Step::Done) => self.ended = true,
                Err(refusal) => {
                    self.ended = true;
                    return Some(Err(refusal));
                }
            }
        }
        None
    }
}

impl std::iter::FusedIterator for Walker<'_> {}
