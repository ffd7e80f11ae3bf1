//! Rays.

/// A ray: where it begins, its direction, and from which to which distance it reaches, in lengths of the direction.
/// Zeros of its origin and its direction have no sign: whatever is asked reads −0.0 there as +0.0.
///
/// ```
/// let sun = funnelcress::Ray::new([1.0, 2.0, 0.8], [0.3, -0.4, 0.5]).starting(1.5).reaching(50.0);
/// assert_eq!(sun.to_floats(), [1.0, 2.0, 0.8, 0.3, -0.4, 0.5, 1.5, 50.0]);
/// ```
#[derive(Clone, Copy, Debug, PartialEq)]
pub struct Ray {
    /// Where it begins.
    pub origin: [f32; 3],
    /// Its direction, of any length.
    pub direction: [f32; 3],
    /// The start: what is entered nearer is not met.
    pub tmin: f32,
    /// The reach: what is as far or farther is not met.
    pub tmax: f32,
}

impl Ray {
    /// A ray from a point that reaches without end.
    pub fn new(origin: [f32; 3], direction: [f32; 3]) -> Ray {
        Ray { origin, direction, tmin: 0.0, tmax: f32::INFINITY }
    }

    /// The same ray with another start, as above a sensor's mast.
    pub fn starting(self, tmin: f32) -> Ray {
        Ray { tmin, ..self }
    }

    /// The same ray with another reach.
    pub fn reaching(self, tmax: f32) -> Ray {
        Ray { tmax, ..self }
    }

    /// As the library takes it: origin, direction, tmin, tmax.
    pub fn to_floats(&self) -> [f32; 8] {
        let ([a, b, c], [x, y, z]) = (self.origin, self.direction);
        [a, b, c, x, y, z, self.tmin, self.tmax]
    }
}

impl From<[f32; 8]> for Ray {
    fn from([a, b, c, x, y, z, tmin, tmax]: [f32; 8]) -> Ray {
        Ray { origin: [a, b, c], direction: [x, y, z], tmin, tmax }
    }
}
