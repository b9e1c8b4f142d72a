//! The independent program: the rules of the paper in plain loops, written from its text alone.
//!
//! It judges the product, so it is made to be read beside the paper. Modules stand in the paper's
//! order. What the paper fixes (numbers, ends, orders, choices) stands by name in `rules`, release
//! by release; `wrong` is the table of its wrong readings. A figure is an `i128` or a fraction of
//! two; arithmetic that would overflow stops the program instead of wrapping (`overflow-checks`). A
//! call that refuses gives a [`Refusal`] and has written nothing; a call that accepts has written
//! only the places its comment names.

pub mod bound;
pub mod climb;
pub mod dynamics;
pub mod fraction;
pub mod item;
pub mod mass;
pub mod natural;
pub mod numbers;
pub mod reader;
pub mod reasons;
pub mod report;
pub mod rules;
pub mod second;
pub mod stream;
pub mod trip;
pub mod windows;
pub mod writer;
pub mod wrong;

pub use numbers::{Plan, Refusal};
pub use rules::{release, Rules};
