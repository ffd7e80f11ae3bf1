//! What a query is asked of: a record, the index words of its positions, and panes; and how a query stands in a file.
use crate::convert::{bvh_of, convert};
use crate::leaves::word;
use crate::query;
use crate::store::words_of;
use crate::tree::{aabb_words, sample_tree};
use crate::walk::{self, Answer};
use glam::Vec3A;
use obvhs::aabb::Aabb;
use obvhs::ray::Ray;

#[derive(Clone, Default)]
pub struct Scene {
    pub record: Vec<u8>,
    /// An index word for each position.
    pub list: Vec<u32>,
    /// Boxes of six floats, as words.
    pub panes: Vec<u32>,
}

/// A ray, the number of positions that any-hit is given, and the words that it is lent.
#[derive(Clone)]
pub struct Asked {
    pub ray: Ray,
    pub n: usize,
    pub room: usize,
}

#[derive(PartialEq)]
pub struct Answers {
    pub any: Answer,
    pub closest: Answer,
    pub miss: Answer,
}

impl Answers {
    /// The three in their order.
    pub fn all(&self) -> [&Answer; 3] {
        [&self.any, &self.closest, &self.miss]
    }

    /// The numbers of the refusals, 0 for none.
    pub fn numbers(&self) -> [u32; 3] {
        self.all().map(|a| a.refusal)
    }

    /// Of each its number, its tests, how many words it found, and these.
    pub fn words(&self) -> Vec<u32> {
        let words = |a: &&Answer| [&[a.refusal, a.tests, a.found.len() as u32][..], &a.found].concat();
        self.all().iter().flat_map(words).collect()
    }
}

/// How much of it is left without the zeros at its end.
pub fn stored_part<T: Copy + PartialEq + Default>(all: &[T]) -> &[T] {
    &all[..all.iter().rposition(|&x| x != T::default()).map_or(0, |k| k + 1)]
}


/// A ray without an end, and with tmin 0.
pub fn endless(origin: [f32; 3], direction: [f32; 3]) -> Ray {
    Ray::new(Vec3A::from(origin), Vec3A::from(direction), 0.0, f32::INFINITY)
}

/// A ray along x through the middle of T's boxes, from this x on and with this tmin: from -1 on it comes to them at 1 and 3, and
/// leaves them at 2 and 4.
pub fn through_t(x: f32, tmin: f32) -> Ray {
    Ray { tmin, ..endless([x, 0.5, 0.5], [1.0, 0.0, 0.0]) }
}

/// A ray's eight floats.
pub fn ray_words(r: &Ray) -> Vec<u32> {
    let f = [r.origin.x, r.origin.y, r.origin.z, r.direction.x, r.direction.y, r.direction.z, r.tmin, r.tmax];
    f.iter().map(|&x| word(x)).collect()
}

impl Scene {
    /// T's record with the boxes of its two leaves as panes.
    pub fn sample() -> Scene {
        let t = sample_tree();
        let c = convert(&t, 3, false);
        Scene { record: c.record, list: c.list, panes: [1, 2].iter().flat_map(|&v| aabb_words(&t.aabb(v))).collect() }
    }

    /// The answers by the rules.
    pub fn by_rules(&self, q: &Asked) -> Answers {
        Answers {
            any: walk::any_hit(&self.record, q.n, &q.ray, q.room),
            closest: walk::nearest(&self.record, &self.list, &self.panes, &q.ray, false),
            miss: walk::nearest(&self.record, &self.list, &self.panes, &q.ray, true),
        }
    }

    /// The published answers among these panes, the two ways to the closest hit being the same. Any-hit's list is as long as it needs.
    pub fn published_among(&self, panes: &[Option<Aabb>], r: &Ray) -> Answers {
        let bvh = bvh_of(&self.record, &self.list);
        let closest = query::closest(&bvh, panes, *r);
        assert_eq!(closest, query::closest_dynamic(&bvh, panes, *r));
        Answers { any: query::any_hit(&bvh, *r), closest, miss: query::miss(&bvh, panes, *r) }
    }

    /// The published answers.
    pub fn published(&self, r: &Ray) -> Answers {
        self.published_among(&query::panes_of(&self.panes), r)
    }

    /// Both, which must be the same.
    pub fn agreed(&self, r: &Ray) -> Answers {
        let n = self.list.len();
        let a = self.published(r);
        assert!(a == self.by_rules(&Asked { ray: *r, n, room: n }));
        a
    }

    /// A ray's words, the number of positions and the room of any-hit, and the three answers.
    pub fn asked_words(&self, q: &Asked) -> Vec<u32> {
        let mut w = ray_words(&q.ray);
        w.extend([q.n as u32, q.room as u32]);
        w.extend(self.by_rules(q).words());
        w
    }

    /// Bytes of the record, index words, words of the panes, questions; how many of the first three are stored, the others
    /// being zero; these, and the words of each question.
    pub fn case(&self, asked: &[Asked]) -> Vec<u32> {
        let (record, list, panes) = (stored_part(&self.record), stored_part(&self.list), stored_part(&self.panes));
        let whole = [self.record.len(), self.list.len(), self.panes.len(), asked.len()];
        let stored = [record.len(), list.len(), panes.len()];
        let mut w: Vec<u32> = whole.iter().chain(&stored).map(|&x| x as u32).collect();
        w.extend(words_of(record));
        w.extend(list);
        w.extend(panes);
        asked.iter().for_each(|q| w.extend(self.asked_words(q)));
        w
    }
}
