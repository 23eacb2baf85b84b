//! Sheets: a sheet program written over the original, sheets of every kind, and the comparison of what the port prints with what
//! that program prints, byte for byte.

pub mod compared;
mod damage;
mod edits;
mod form;
pub mod fuzz;
pub mod ported;
pub mod program;
mod random;
pub mod run;
pub mod stored;
mod text;

pub use random::case;
