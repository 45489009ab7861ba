//! The flat-area planner, for Rust: a safe crate over the proved archive.
//!
//! What a call answers is proved of the archive (`docs/READING.md` leads to the statements). This crate is not proved: it only lends
//! memory, puts names to numbers, and lets the compiler see to what a caller through C has to see to. All of its `unsafe` stands in
//! one module, which calls the C door.
//!
//! An [`Index`] borrows the [`Mesh`] that it was built from, so an index of another mesh cannot be asked, and the mesh cannot change
//! under it. [`Marks`] are lent to each question; several threads may ask one index, each with marks of its own.
//!
//! ```
//! use mandrikelo::{Index, Mesh};
//!
//! // a triangle at height 2
//! let mesh = Mesh::from_numbers(vec![0., 0., 2., 4., 0., 2., 0., 4., 2.]);
//! let index = Index::build(&mesh, 0.0, 1.0)?;
//! let mut marks = index.marks();
//!
//! // the highest point under a disk of radius 1 at (1, 1): the triangle; far from it: the floor
//! let answer = index.max_height(&mut marks, [1., 1.], [1., 1.], 1.0)?;
//! assert_eq!((answer.height, answer.count), (2.0, 1));
//! let answer = index.max_height(&mut marks, [20., 1.], [20., 1.], 1.0)?;
//! assert_eq!((answer.height, answer.count), (0.0, 0));
//! # Ok::<(), mandrikelo::Refusal>(())
//! ```
//!
//! Several threads, each with its own marks:
//!
//! ```
//! # use mandrikelo::{Index, Mesh};
//! # let mesh = Mesh::from_numbers(vec![0., 0., 2., 4., 0., 2., 0., 4., 2.]);
//! let index = Index::build(&mesh, 0.0, 1.0)?;
//! let heights: Vec<f64> = std::thread::scope(|scope| {
//!     let asked: Vec<_> = (0..4)
//!         .map(|k| {
//!             let index = &index;
//!             scope.spawn(move || index.max_height(&mut index.marks(), [k as f64, 1.], [k as f64, 1.], 0.5).map(|a| a.height))
//!         })
//!         .collect();
//!     asked.into_iter().map(|thread| thread.join().unwrap()).collect::<Result<_, _>>()
//! })?;
//! assert_eq!(heights, [2.0, 2.0, 2.0, 2.0]);
//! # Ok::<(), mandrikelo::Refusal>(())
//! ```
//!
//! An index does not outlive its mesh, and the mesh stays as it is:
//!
//! ```compile_fail
//! # use mandrikelo::{Index, Mesh};
//! let index = {
//!     let mesh = Mesh::from_numbers(vec![0.; 9]);
//!     Index::build(&mesh, 0.0, 1.0).unwrap()
//! };
//! index.marks();
//! ```
#![deny(unsafe_code)]
#![warn(missing_docs)]

#[allow(unsafe_code)]
mod door;
mod file;
mod index;
mod look;
mod moves;
mod plan;
mod refusal;
mod tool;
mod touch;
pub mod um;

pub use file::{Job, Question};
pub use index::{Answer, Chord, Index, Marks, Mesh, Verdict};
pub use look::{Finding, Reason};
pub use moves::{Heights, Kind, Move, Moves};
pub use plan::{Axis, Level, Parameters, Plan, Run};
pub use refusal::Refusal;
pub use tool::{Holder, Neck, Section, Shape, Sheet, Tool};
pub use touch::Touch;

/// The most triangles that a mesh may have.
pub const MOST_TRIANGLES: usize = 65_536;
