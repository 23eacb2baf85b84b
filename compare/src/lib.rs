//! The comparison: the original Rust, our own model of document 01's steps and the port, driven with the same calls.
//!
//! The original's files say `rand`, `u_metaheur` and `crate::..`, so they are compiled at the root of this crate, and
//! the two names lead back to it, where the stand-ins are.

extern crate self as rand;
extern crate self as u_metaheur;

include!(concat!(env!("OUT_DIR"), "/tree.rs"));

pub mod answers;
#[cfg(original)]
pub mod bench;
pub mod cases;
pub mod checks;
pub mod claim;
pub mod events;
pub mod generate;
pub mod listed;
pub mod model;
#[cfg(original)]
pub mod original;
pub mod port;
pub mod ported;
pub mod problem;
pub mod random;
pub mod replay;
pub mod run;
#[cfg(original)]
pub mod sheet;
mod stand_ins;

pub use stand_ins::{Deadline, Rng, RngExt, Tape};

/// The folder that the original was built from, or looked for in.
pub const ORIGINAL: &str = env!("COMPARE_ORIGINAL");
