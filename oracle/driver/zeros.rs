//! Zeros of a ray: the ray that the published code is handed, and how many of the rays in a file have -0.0.
use crate::tree::unsigned_zero;
use glam::Vec3A;
use obvhs::ray::Ray;
use std::fmt::{Display, Formatter, Result};

/// The ray that the published code is handed: zeros of origin and direction as +0.0, with the inverse of the direction so read.
pub fn entered(r: &Ray) -> Ray {
    let read = |v: Vec3A| Vec3A::from([v.x, v.y, v.z].map(unsigned_zero));
    Ray::new(read(r.origin), read(r.direction), r.tmin, r.tmax)
}

fn has_negative_zero(r: &Ray) -> bool {
    let (o, d) = (r.origin, r.direction);
    [o.x, o.y, o.z, d.x, d.y, d.z].iter().any(|x| *x == 0.0 && x.is_sign_negative())
}

/// The rays of a kind: how many there are, how many have -0.0 in origin or direction, and how many of these come to something.
#[derive(Default)]
pub struct Share {
    rays: u32,
    negative: u32,
    coming: u32,
}

impl Share {
    pub fn note(&mut self, r: &Ray, comes: bool) {
        let negative = has_negative_zero(r);
        self.rays += 1;
        self.negative += negative as u32;
        self.coming += (negative && comes) as u32;
    }

    /// Whether at least one ray in so many has -0.0 and comes to something.
    pub fn one_in(&self, count: u32) -> bool {
        count * self.coming >= self.rays
    }
}

impl Display for Share {
    fn fmt(&self, f: &mut Formatter) -> Result {
        write!(f, "{} rays, {} with -0.0, of which {}", self.rays, self.negative, self.coming)
    }
}
