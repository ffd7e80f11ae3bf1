//! Boxes by themselves: half areas, and where a ray enters.
use crate::ray::Ray;
use crate::record::Pane;
use crate::refusal::Refusal;
use crate::sys;

/// A refusal number of 32 bits, 0 for none.
fn unless(number: u32, out: Vec<f32>) -> Result<Vec<f32>, Refusal> {
    match number {
        0 => Ok(out),
        number => Err(Refusal::from_number(number)),
    }
}

/// The half area of each box.
///
/// ```
/// assert_eq!(funnelcress::half_areas(&[[0.0, 0.0, 0.0, 1.0, 2.0, 3.0]]), Ok(vec![11.0]));
/// ```
pub fn half_areas(boxes: &[Pane]) -> Result<Vec<f32>, Refusal> {
    let mut out = vec![0f32; boxes.len()];
    let boxes = boxes.as_flattened();
    // SAFETY: each pointer is a slice's and has its length beside it, and the two do not overlap.
    let number = unsafe { sys::funnelcress_half_areas(boxes.as_ptr(), boxes.len(), out.as_mut_ptr(), out.len()) };
    unless(number, out)
}

/// The distance at which the ray enters each box: negative from inside, infinite for a miss.
///
/// ```
/// let ray = funnelcress::Ray::new([-1.0, 0.5, 0.5], [1.0, 0.0, 0.0]);
/// assert_eq!(funnelcress::entry_distances(&[[0.0, 0.0, 0.0, 1.0, 1.0, 1.0]], &ray), Ok(vec![1.0]));
/// ```
pub fn entry_distances(boxes: &[Pane], ray: &Ray) -> Result<Vec<f32>, Refusal> {
    let mut out = vec![0f32; boxes.len()];
    let (boxes, floats) = (boxes.as_flattened(), ray.to_floats());
    // SAFETY: as above; the ray is an array of its own.
    let number = unsafe {
        sys::funnelcress_entry_distances(
            boxes.as_ptr(),
            boxes.len(),
            floats.as_ptr(),
            floats.len(),
            out.as_mut_ptr(),
            out.len(),
        )
    };
    unless(number, out)
}
