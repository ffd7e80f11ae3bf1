//! What a timed query is asked of, its answers by the rules and by the published code, and how it stands in a file.
//! The published code knows no quarters: panes whose own span does not hold the quarter are hidden from it, and are taken out of the
//! list of its any-hit. Over a side table that a conversion writes that must come to the same, by as many tests or more; and by just
//! as many where all panes are drawn all day.
use crate::loss::two_words;
use crate::query::panes_of;
use crate::scene::{Answers, Scene, ray_words, stored_part};
use crate::spans::{all_day, always_open, side_table, span_at};
use crate::store::words_of;
use crate::timed::{self, Lists, listing};
use obvhs::ray::Ray;

#[derive(Clone)]
pub struct TimedScene {
    pub scene: Scene,
    pub side: Vec<u8>,
    pub spans: Vec<u8>,
}

/// A ray and its quarter, the number of panes that any-hit is given, and the words that it is lent.
#[derive(Clone)]
pub struct TimedAsked {
    pub ray: Ray,
    pub quarter: u8,
    pub panes: usize,
    pub room: usize,
}

impl TimedScene {
    /// With the side table that a conversion of these spans writes.
    pub fn converted(scene: Scene, spans: Vec<u8>) -> TimedScene {
        let side = side_table(&scene.record, &scene.list, &spans);
        TimedScene { scene, side, spans }
    }

    /// All day, which opens each slot that holds something.
    pub fn all_day(scene: Scene) -> TimedScene {
        let s = TimedScene { spans: all_day(scene.panes.len() / 6), side: always_open(&scene.record), scene };
        assert_eq!(s.side, side_table(&s.scene.record, &s.scene.list, &s.spans));
        s
    }

    /// The panes of the scene.
    pub fn panes(&self) -> usize {
        self.scene.panes.len() / 6
    }

    /// Whether every pane is drawn all day.
    pub fn is_all_day(&self) -> bool {
        self.spans == all_day(self.panes())
    }

    /// Asked for as many panes as there are, with a word for each position.
    pub fn asked(&self, ray: &Ray, quarter: u8) -> TimedAsked {
        TimedAsked { ray: *ray, quarter, panes: self.panes(), room: self.scene.list.len() }
    }

    pub fn lists(&self, panes: usize) -> Lists<'_> {
        let Scene { record, list, .. } = &self.scene;
        Lists { record, side: &self.side, list, panes, spans: &self.spans }
    }

    /// The answers by the rules.
    pub fn by_rules(&self, q: &TimedAsked) -> Answers {
        let on = self.lists(q.panes);
        let nearest = |first: bool| timed::nearest(on, &self.scene.panes, &q.ray, q.quarter, first);
        Answers { any: timed::any_hit(on, &q.ray, q.quarter, q.room), closest: nearest(false), miss: nearest(true) }
    }

    /// The published answers, where panes out of their hours are hidden, and taken out of any-hit's list.
    fn published(&self, r: &Ray, quarter: u8) -> Answers {
        let shown = |pane: usize| span_at(&self.spans, pane).holds(quarter);
        let panes = panes_of(&self.scene.panes).into_iter().enumerate();
        let panes: Vec<_> = panes.map(|(k, pane)| pane.filter(|_| shown(k))).collect();
        let mut a = self.scene.published_among(&panes, r);
        a.any.found.retain(|&p| shown(self.scene.list[p as usize] as usize));
        a
    }

    /// Both answers, which must find the same; the side table is a conversion's.
    pub fn agreed(&self, r: &Ray, quarter: u8) -> Answers {
        let a = self.defined(r, quarter);
        let published = self.published(r, quarter);
        for (ours, theirs) in a.all().into_iter().zip(published.all()) {
            assert!(ours.refusal == 0 && ours.found == theirs.found && ours.tests <= theirs.tests);
        }
        assert!(!self.is_all_day() || a == published);
        a
    }

    /// The rules' answers over a record without a fault, any-hit's of which must be its definition's, whatever the side table is.
    pub fn defined(&self, r: &Ray, quarter: u8) -> Answers {
        let a = self.by_rules(&self.asked(r, quarter));
        assert_eq!((a.any.tests, a.any.found.clone()), listing(self.lists(self.panes()), r, quarter));
        a
    }

    /// A ray's words, its quarter, the number of panes of any-hit in two words, its room, and the three answers.
    fn asked_words(&self, q: &TimedAsked) -> Vec<u32> {
        let mut w = ray_words(&q.ray);
        w.push(q.quarter as u32);
        w.extend(two_words(q.panes as u64));
        w.push(q.room as u32);
        w.extend(self.by_rules(q).words());
        w
    }

    /// Bytes of the record and of the side table, index words, words of the panes, bytes of the spans, questions; how many of the first
    /// five are stored, the others being zero; these, and the words of each question.
    pub fn case(&self, asked: &[TimedAsked]) -> Vec<u32> {
        let Scene { record, list, panes } = &self.scene;
        let whole = [record.len(), self.side.len(), list.len(), panes.len(), self.spans.len(), asked.len()];
        let (record, side, spans) = (stored_part(record), stored_part(&self.side), stored_part(&self.spans));
        let (list, panes) = (stored_part(list), stored_part(panes));
        let stored = [record.len(), side.len(), list.len(), panes.len(), spans.len()];
        let mut w: Vec<u32> = whole.iter().chain(&stored).map(|&x| x as u32).collect();
        w.extend([words_of(record), words_of(side), list.to_vec(), panes.to_vec(), words_of(spans)].concat());
        asked.iter().for_each(|q| w.extend(self.asked_words(q)));
        w
    }
}
