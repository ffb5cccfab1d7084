//! A Funnel Heap priority queue written plainly from the requirement document.
//!
//! It is the yardstick another implementation is compared with: every buffer is
//! a plain list of entries, and every function stands under the sentence of the
//! document that it follows.

pub mod array;
pub mod frames;
pub mod generate;
pub mod joining;
pub mod lateness;
pub mod limits;
pub mod links;
pub mod machine;
pub mod movement;
pub mod options;
pub mod queue;
pub mod rng;
