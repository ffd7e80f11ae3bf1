//! A proved box-tree converter and ray walker, as safe Rust.
//!
//! A binary tree of boxes ([`Tree`]) is converted to a [`Record`] of 80-byte nodes with eight children each, which is
//! then asked for what a [`Ray`] meets; two trees are made one by [`Tree::join`], and panes that are there at some quarter
//! hours of the day make a [`TimedRecord`] by [`Tree::convert_timed`]. Every answer is the library's, whose
//! functions are proved; this crate lends it slices of the lengths that it needs and reads the numbers that it returns.
//! Nothing is decided here.
//!
//! ```
//! use funnelcress::{Options, Ray, Tree, Verdict};
//!
//! let panes = [[0.0, 0.0, 0.0, 1.0, 1.0, 1.0], [2.0, 0.0, 0.0, 3.0, 1.0, 1.0]];
//! let record = Tree::over(&panes).convert(Options::default())?;
//! assert_eq!(record.check()?, Verdict::Sound(0));
//!
//! let ray = Ray::new([-1.0, 0.5, 0.5], [1.0, 0.0, 0.0]);
//! let met = record.any_hit(&ray)?;
//! assert_eq!((met.positions, met.tests), (vec![1, 0], 1));
//!
//! let nearest = record.closest(&panes, &ray)?.hit.unwrap();
//! assert_eq!((nearest.position, nearest.distance), (0, 1.0));
//! assert!(!record.miss(&panes, &ray)?.missed);
//!
//! let report = record.report(panes.len(), &[3000, 500], &[ray, ray.reaching(2.5)])?;
//! assert_eq!((report.rays, report.panes), (vec![3500, 3000], vec![6000, 500]));
//! # Ok::<(), funnelcress::Refusal>(())
//! ```
//!
//! Who would lend slices of its own calls the functions of [`sys`].
//!
//! Calls share no state: a [`Record`] may be asked from many threads at once ([`on_threads`], [`report_on_threads`],
//! [`timed_report_on_threads`]).
#![warn(missing_docs)]

mod answers;
mod boxes;
mod lengths;
mod many;
mod ray;
mod record;
mod refusal;
pub mod sys;
mod timed;
mod tree;
mod walker;

pub use answers::{AnyHit, Closest, Hit, Miss, Report, Verdict};
pub use boxes::{entry_distances, half_areas};
pub use lengths::{Lengths, MAX_LEVEL, MAX_LOSS, MAX_NODES, MAX_POSITIONS, MAX_RAYS, NODE_BYTES, SIDE_BYTES};
pub use many::{cores, on_threads, report_on_threads, timed_report_on_threads};
pub use ray::Ray;
pub use record::{Options, Pane, Record};
pub use refusal::Refusal;
pub use timed::{ALL_DAY, LAST_QUARTER, Span, TimedRecord};
pub use tree::{Link, Node, ObvhsNode, Tree, TreeError};
pub use walker::{State, Step, Walker};
