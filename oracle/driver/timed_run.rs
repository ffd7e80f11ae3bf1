//! A list of calls of one timed walker, as it stands in a file: steps, each on the lists then lent, and tellings. The answers are
//! those of the rules.
use crate::leaves::word;
use crate::run::{Calls, TELL, end_words, held_words, no_walker, step_word};
use crate::scene::{ray_words, stored_part};
use crate::store::words_of;
use crate::timed::{Lists, TimedWalker, start_cause};
use crate::timed_scene::TimedScene;
use crate::walker::{Held, Step, Walker};
use obvhs::ray::Ray;

/// Words that are no step's: with a field added, from here on the next word is what is lent of it.
const LEND: u32 = 0xc020_0000;

/// How much is lent: bytes of the record, bytes of the side table, index words, panes, bytes of the spans; and which of the lists.
#[derive(Clone, Copy, PartialEq)]
pub struct Lent {
    pub record: usize,
    pub side: usize,
    pub list: usize,
    pub panes: usize,
    pub spans: usize,
    pub turn: usize,
}

impl Lent {
    fn fields(&self) -> [usize; 6] {
        [self.record, self.side, self.list, self.panes, self.spans, self.turn]
    }
}

/// A record, and side tables, index words and spans of which one turn is lent at a time.
pub struct TimedGround {
    pub record: Vec<u8>,
    sides: Vec<Vec<u8>>,
    lists: Vec<Vec<u32>>,
    spans: Vec<Vec<u8>>,
    pub lent: Lent,
}

impl TimedGround {
    /// The lists of these scenes over one record, the first of which are lent at first; with zeros behind them that are not.
    pub fn new(turns: &[TimedScene]) -> TimedGround {
        let first = &turns[0];
        let (record, list) = (&first.scene.record, &first.scene.list);
        let (side, spans) = (first.side.len(), first.spans.len());
        let lent = Lent { record: record.len(), side, list: list.len(), panes: first.panes(), spans, turn: 0 };
        let longer = |bytes: &[u8], most: usize| [bytes, &vec![0; most - bytes.len()]].concat();
        TimedGround {
            record: [&record[..], &[0; 159]].concat(),
            sides: turns.iter().map(|s| longer(&s.side, side + 32)).collect(),
            lists: turns.iter().map(|s| [&s.scene.list[..], &vec![0; list.len() + 3 - s.scene.list.len()]].concat()).collect(),
            spans: turns.iter().map(|s| longer(&s.spans, spans + 4)).collect(),
            lent,
        }
    }

    /// What is lent.
    fn lists(&self, lent: Lent) -> Lists<'_> {
        let (side, list, spans) = (&self.sides[lent.turn], &self.lists[lent.turn], &self.spans[lent.turn]);
        Lists {
            record: &self.record[..lent.record],
            side: &side[..lent.side],
            list: &list[..lent.list],
            panes: lent.panes,
            spans: &spans[..lent.spans],
        }
    }

    /// Bytes of the record, and of one turn bytes of the side table, index words, bytes of the spans; turns; how many of the four are
    /// stored over all turns, the others being zero; what is lent at first but for the turn; walks; these.
    pub fn case(&self, walks: &[Vec<u32>]) -> Vec<u32> {
        let (sides, lists, spans) = (self.sides.concat(), self.lists.concat(), self.spans.concat());
        let whole = [self.record.len(), self.sides[0].len(), self.lists[0].len(), self.spans[0].len(), self.sides.len()];
        let (record, sides) = (stored_part(&self.record), stored_part(&sides));
        let (lists, spans) = (stored_part(&lists), stored_part(&spans));
        let stored = [record.len(), sides.len(), lists.len(), spans.len()];
        let sizes = [&whole[..], &stored, &self.lent.fields()[..5], &[walks.len()]].concat();
        let mut w: Vec<u32> = sizes.iter().map(|&x| x as u32).collect();
        w.extend([words_of(record), words_of(sides), lists.to_vec(), words_of(spans)].concat());
        w.extend(walks.concat());
        w
    }

    /// A walker just begun. Of a ray or a quarter that is refused, the one that stands beside the number.
    pub fn begun(&self, r: &Ray, quarter: u8) -> TimedRun<'_> {
        let number = start_cause(r, quarter);
        let held = if number == 0 { Held::fresh(r) } else { no_walker() };
        self.start([vec![1], ray_words(r), vec![number]].concat(), &held, quarter)
    }

    /// A walker that its caller has made up.
    pub fn held(&self, h: &Held, quarter: u8) -> TimedRun<'_> {
        self.start(held_words(h), h, quarter)
    }

    fn start(&self, start: Vec<u32>, h: &Held, quarter: u8) -> TimedRun<'_> {
        let walker = TimedWalker { walker: Walker::of(h), quarter };
        TimedRun { ground: self, start: [vec![quarter as u32], start].concat(), walker, lent: self.lent, calls: vec![] }
    }
}

/// A timed walk under way.
pub struct TimedRun<'a> {
    pub ground: &'a TimedGround,
    start: Vec<u32>,
    walker: TimedWalker,
    pub lent: Lent,
    calls: Vec<u32>,
}

impl Calls for TimedRun<'_> {
    fn step(&mut self) -> Step {
        let s = self.walker.step(self.ground.lists(self.lent));
        self.calls.push(step_word(s));
        s
    }

    fn tell(&mut self, distance: f32) {
        self.walker.walker.tell(distance);
        self.calls.extend([TELL, word(distance)]);
    }
}

impl TimedRun<'_> {
    /// The walker's tmin.
    pub fn tmin(&self) -> f32 {
        self.walker.walker.ray.tmin
    }

    /// From here on this is lent.
    pub fn lend(&mut self, lent: Lent) {
        for (field, (now, then)) in self.lent.fields().into_iter().zip(lent.fields()).enumerate() {
            if now != then {
                self.calls.extend([LEND + field as u32, then as u32]);
            }
        }
        self.lent = lent;
    }

    /// The other lists, or the first, with as much lent as at first.
    pub fn turn(&mut self, turn: usize) {
        self.lend(Lent { turn, ..self.ground.lent });
    }

    /// The quarter and how the walk starts, the words of its calls with their count, and what it comes to.
    pub fn words(self) -> Vec<u32> {
        [self.start, vec![self.calls.len() as u32], self.calls, end_words(&self.walker.walker).to_vec()].concat()
    }
}
