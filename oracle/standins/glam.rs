//! A stand-in for the part of glam that the oracle's sources name: plain f32 and u32 components, no SIMD.
//! `min` and `max` answer their second argument for a NaN or two zeros, as minps and maxps do.
#![allow(clippy::should_implement_trait)]

use std::ops::{Add, BitAnd, BitOr, Div, Index, Mul, Sub};

fn lesser(a: f32, b: f32) -> f32 {
    if a < b { a } else { b }
}

fn greater(a: f32, b: f32) -> f32 {
    if a > b { a } else { b }
}

/// The result of a comparison of each component.
#[derive(Clone, Copy)]
pub struct BVec3A(bool, bool, bool);

impl BVec3A {
    pub fn all(self) -> bool {
        self.0 && self.1 && self.2
    }
    pub fn bitmask(self) -> u32 {
        self.0 as u32 | (self.1 as u32) << 1 | (self.2 as u32) << 2
    }
}

impl BitAnd for BVec3A {
    type Output = Self;
    fn bitand(self, o: Self) -> Self {
        BVec3A(self.0 && o.0, self.1 && o.1, self.2 && o.2)
    }
}

impl BitOr for BVec3A {
    type Output = Self;
    fn bitor(self, o: Self) -> Self {
        BVec3A(self.0 || o.0, self.1 || o.1, self.2 || o.2)
    }
}

/// Three floats in the place of glam's aligned vector.
#[derive(Clone, Copy, Debug, Default, PartialEq)]
#[repr(C)]
pub struct Vec3A {
    pub x: f32,
    pub y: f32,
    pub z: f32,
}

#[inline(always)]
pub const fn vec3a(x: f32, y: f32, z: f32) -> Vec3A {
    Vec3A { x, y, z }
}

impl Vec3A {
    pub const ZERO: Self = Self::splat(0.0);

    #[inline(always)]
    pub const fn new(x: f32, y: f32, z: f32) -> Self {
        vec3a(x, y, z)
    }
    #[inline(always)]
    pub const fn splat(v: f32) -> Self {
        vec3a(v, v, v)
    }
    #[inline(always)]
    fn each(self, f: impl Fn(f32) -> f32) -> Self {
        vec3a(f(self.x), f(self.y), f(self.z))
    }
    #[inline(always)]
    fn both(self, o: Self, f: impl Fn(f32, f32) -> f32) -> Self {
        vec3a(f(self.x, o.x), f(self.y, o.y), f(self.z, o.z))
    }
    #[inline(always)]
    fn compare(self, o: Self, f: impl Fn(&f32, &f32) -> bool) -> BVec3A {
        BVec3A(f(&self.x, &o.x), f(&self.y, &o.y), f(&self.z, &o.z))
    }
    #[inline(always)]
    pub fn min(self, o: Self) -> Self {
        self.both(o, lesser)
    }
    #[inline(always)]
    pub fn max(self, o: Self) -> Self {
        self.both(o, greater)
    }
    #[inline(always)]
    pub fn min_element(self) -> f32 {
        lesser(lesser(self.x, self.y), self.z)
    }
    #[inline(always)]
    pub fn max_element(self) -> f32 {
        greater(greater(self.x, self.y), self.z)
    }
    #[inline(always)]
    pub fn dot(self, o: Self) -> f32 {
        (self.x * o.x + self.y * o.y) + self.z * o.z
    }
    #[inline(always)]
    pub fn floor(self) -> Self {
        self.each(f32::floor)
    }
    #[inline(always)]
    pub fn ceil(self) -> Self {
        self.each(f32::ceil)
    }
    #[inline(always)]
    pub fn clamp(self, least: Self, most: Self) -> Self {
        self.max(least).min(most)
    }
    pub fn is_finite(self) -> bool {
        self.x.is_finite() && self.y.is_finite() && self.z.is_finite()
    }
    pub fn cmpge(self, o: Self) -> BVec3A {
        self.compare(o, f32::ge)
    }
    pub fn cmple(self, o: Self) -> BVec3A {
        self.compare(o, f32::le)
    }
    pub fn cmpgt(self, o: Self) -> BVec3A {
        self.compare(o, f32::gt)
    }
    pub fn cmplt(self, o: Self) -> BVec3A {
        self.compare(o, f32::lt)
    }
    /// The logarithm without rounding, by keeping its argument: `log2().ceil().exp2()` is then
    /// the next power of two at or above the argument.
    pub fn log2(self) -> Log2 {
        Log2(self)
    }
}

impl std::fmt::Display for Vec3A {
    fn fmt(&self, f: &mut std::fmt::Formatter<'_>) -> std::fmt::Result {
        write!(f, "[{}, {}, {}]", self.x, self.y, self.z)
    }
}

/// The exact base 2 logarithms of three positive normal floats, and their ceilings.
pub struct Log2(Vec3A);
pub struct CeilLog2(Vec3A);

impl Log2 {
    pub fn ceil(self) -> CeilLog2 {
        CeilLog2(self.0)
    }
}

impl CeilLog2 {
    pub fn exp2(self) -> Vec3A {
        self.0.each(power_of_two_not_below)
    }
}

/// The next power of two at or above a positive normal float: one more in the exponent field unless
/// the fraction is zero.
pub fn power_of_two_not_below(v: f32) -> f32 {
    let bits = v.to_bits();
    f32::from_bits(if bits & 0x7f_ffff == 0 { bits } else { ((bits >> 23) + 1) << 23 })
}

macro_rules! componentwise {
    ($op:ident, $f:ident) => {
        impl $op for Vec3A {
            type Output = Self;
            #[inline(always)]
            fn $f(self, o: Self) -> Self {
                self.both(o, |a, b| a.$f(b))
            }
        }
        impl $op<f32> for Vec3A {
            type Output = Self;
            #[inline(always)]
            fn $f(self, o: f32) -> Self {
                self.each(|a| a.$f(o))
            }
        }
        impl $op<Vec3A> for f32 {
            type Output = Vec3A;
            #[inline(always)]
            fn $f(self, o: Vec3A) -> Vec3A {
                o.each(|b| self.$f(b))
            }
        }
    };
}
componentwise!(Add, add);
componentwise!(Sub, sub);
componentwise!(Mul, mul);
componentwise!(Div, div);

impl Index<usize> for Vec3A {
    type Output = f32;
    fn index(&self, axis: usize) -> &f32 {
        [&self.x, &self.y, &self.z][axis]
    }
}

impl From<[f32; 3]> for Vec3A {
    fn from(a: [f32; 3]) -> Self {
        vec3a(a[0], a[1], a[2])
    }
}

impl From<Vec3A> for [f32; 3] {
    fn from(v: Vec3A) -> Self {
        [v.x, v.y, v.z]
    }
}

impl From<Vec3> for Vec3A {
    #[inline(always)]
    fn from(v: Vec3) -> Self {
        vec3a(v.x, v.y, v.z)
    }
}

/// Three packed floats.
#[derive(Clone, Copy, Debug, Default, PartialEq)]
#[repr(C)]
pub struct Vec3 {
    pub x: f32,
    pub y: f32,
    pub z: f32,
}

impl Vec3 {
    pub fn is_finite(self) -> bool {
        Vec3A::from(self).is_finite()
    }
}

impl From<Vec3A> for Vec3 {
    #[inline(always)]
    fn from(v: Vec3A) -> Self {
        Vec3 { x: v.x, y: v.y, z: v.z }
    }
}

#[derive(Clone, Copy, Debug, Default, PartialEq)]
pub struct UVec2 {
    pub x: u32,
    pub y: u32,
}

impl UVec2 {
    pub const ZERO: Self = uvec2(0, 0);
}

#[inline(always)]
pub const fn uvec2(x: u32, y: u32) -> UVec2 {
    UVec2 { x, y }
}

#[derive(Clone, Copy, Debug, Default, PartialEq)]
pub struct UVec3 {
    pub x: u32,
    pub y: u32,
    pub z: u32,
}

impl UVec3 {
    pub const fn new(x: u32, y: u32, z: u32) -> Self {
        UVec3 { x, y, z }
    }
    pub fn as_vec3a(self) -> Vec3A {
        vec3a(self.x as f32, self.y as f32, self.z as f32)
    }
}

impl From<[u32; 3]> for UVec3 {
    fn from(a: [u32; 3]) -> Self {
        UVec3::new(a[0], a[1], a[2])
    }
}

impl From<UVec3> for [u32; 3] {
    fn from(v: UVec3) -> Self {
        [v.x, v.y, v.z]
    }
}

/// Named by a trait that the oracle does not use.
pub struct Mat4;
