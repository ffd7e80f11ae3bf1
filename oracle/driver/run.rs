//! A list of calls of one walker, as it stands in a file: steps, each on the record and for the positions then lent, and
//! tellings. The answers are those of the rules.
use crate::accept::accepted_ray;
use crate::leaves::word;
use crate::scene::{ray_words, stored_part};
use crate::store::words_of;
use crate::tree::bits;
use crate::walker::{Group, Held, Step, Walker};
use glam::Vec3A;
use obvhs::ray::Ray;

/// Words that are no step's: the next one is a distance told, or from here on the number of positions, or from here on the
/// bytes of the record that are lent.
pub const TELL: u32 = 0xc010_0000;
const POSITIONS: u32 = 0xc020_0000;
const BYTES: u32 = 0xc030_0000;

/// A step's stored word.
pub fn step_word(s: Step) -> u32 {
    match s {
        Step::Tested => 0,
        Step::Reported(p) => 1 << 30 | p,
        Step::Done => 2 << 30,
        Step::Refused(number) => 3 << 30 | number,
    }
}

/// The walker beside a refusal 9: all zero, so that its inverse is not its direction's.
pub fn no_walker() -> Held {
    let ray = Ray { origin: Vec3A::ZERO, direction: Vec3A::ZERO, inv_direction: Vec3A::ZERO, tmin: 0.0, tmax: 0.0 };
    Held { ray, octant: 0, current: Group::default(), ..Held::fresh(&ray) }
}

/// A ray's eleven floats: origin, direction, inverse, tmin, tmax.
pub fn held_ray_words(r: &Ray) -> Vec<u32> {
    let vectors = [r.origin, r.direction, r.inv_direction].into_iter().flat_map(bits);
    vectors.map(f32::from_bits).chain([r.tmin, r.tmax]).map(word).collect()
}

/// 0; ray 11, octant, tests, positions and group in hand (base and bits of each), depth, groups given, and these.
pub fn held_words(h: &Held) -> Vec<u32> {
    let mut w = vec![0];
    w.extend(held_ray_words(&h.ray));
    w.extend([h.octant, h.tests]);
    w.extend([h.positions.base, h.positions.bits, h.current.base, h.current.bits, h.depth, h.stack.len() as u32]);
    h.stack.iter().for_each(|g| w.extend([g.base, g.bits]));
    w
}

/// A record, the bytes of it that are lent at first, and the positions that it is taken to have then.
pub struct Ground {
    pub record: Vec<u8>,
    pub bytes: usize,
    pub n: usize,
}

impl Ground {
    /// A record with a node of zeros behind it and a part of another, which are not lent at first.
    pub fn new(record: &[u8], n: usize) -> Ground {
        Ground { record: [record, &[0; 159]].concat(), bytes: record.len(), n }
    }

    /// Bytes of the record, how many are stored, the others being zero, bytes lent, positions, walks; these.
    pub fn case(&self, walks: &[Vec<u32>]) -> Vec<u32> {
        let stored = stored_part(&self.record);
        let head = [self.record.len(), stored.len(), self.bytes, self.n, walks.len()];
        let mut w: Vec<u32> = head.iter().map(|&x| x as u32).collect();
        w.extend(words_of(stored));
        w.extend(walks.concat());
        w
    }

    /// A walker just begun. Of a ray that is refused 9, the one that stands beside the number.
    pub fn begun(&self, r: &Ray) -> Run<'_> {
        let (number, held) = if accepted_ray(r) { (0, Held::fresh(r)) } else { (9, no_walker()) };
        self.start([vec![1], ray_words(r), vec![number]].concat(), &held)
    }

    /// A walker that its caller has made up.
    pub fn held(&self, h: &Held) -> Run<'_> {
        self.start(held_words(h), h)
    }

    fn start(&self, start: Vec<u32>, h: &Held) -> Run<'_> {
        Run { ground: self, start, walker: Walker::of(h), bytes: self.bytes, n: self.n, calls: vec![] }
    }
}

/// A walk under way.
pub struct Run<'a> {
    pub ground: &'a Ground,
    start: Vec<u32>,
    walker: Walker,
    bytes: usize,
    n: usize,
    calls: Vec<u32>,
}

/// A walker whose calls are noted.
pub trait Calls {
    fn step(&mut self) -> Step;

    fn tell(&mut self, distance: f32);
}

/// Steps to the first done or refusal, each report told the next of these distances, and then so many steps more.
pub fn to_end(run: &mut impl Calls, told: &[f32], more: usize) -> Vec<Step> {
    let mut steps = vec![];
    let mut reports = 0;
    loop {
        let s = run.step();
        steps.push(s);
        match s {
            Step::Tested => {}
            Step::Reported(_) if told.is_empty() => {}
            Step::Reported(_) => {
                run.tell(told[reports % told.len()]);
                reports += 1;
            }
            Step::Done | Step::Refused(_) => break,
        }
    }
    (0..more).for_each(|_| assert!(run.step() == *steps.last().unwrap()));
    steps
}

/// What a walk comes to: tests, tmax, positions and children in hand, groups that wait.
pub fn end_words(w: &Walker) -> [u32; 5] {
    [w.tests, word(w.ray.tmax), w.positions.len() as u32, w.group.len() as u32, w.depth()]
}

impl Calls for Run<'_> {
    fn step(&mut self) -> Step {
        let s = self.walker.step(&self.ground.record[..self.bytes], self.n);
        self.calls.push(step_word(s));
        s
    }

    fn tell(&mut self, distance: f32) {
        self.walker.tell(distance);
        self.calls.extend([TELL, word(distance)]);
    }
}

impl Run<'_> {
    /// The walker's tmin.
    pub fn tmin(&self) -> f32 {
        self.walker.ray.tmin
    }

    pub fn positions(&mut self, n: usize) {
        if n != self.n {
            self.n = n;
            self.calls.extend([POSITIONS, n as u32]);
        }
    }

    pub fn lend(&mut self, bytes: usize) {
        if bytes != self.bytes {
            self.bytes = bytes;
            self.calls.extend([BYTES, bytes as u32]);
        }
    }

    /// As it was lent at first.
    pub fn restore(&mut self) {
        self.positions(self.ground.n);
        self.lend(self.ground.bytes);
    }

    /// Steps to the first done or refusal, each report told the next of these distances, and then so many steps more.
    pub fn to_end(&mut self, told: &[f32], more: usize) -> Vec<Step> {
        to_end(self, told, more)
    }

    /// How it starts, the words of its calls with their count, and what it comes to.
    pub fn words(self) -> Vec<u32> {
        [self.start, vec![self.calls.len() as u32], self.calls, end_words(&self.walker).to_vec()].concat()
    }
}
