//! Stand-in: the module that holds the original's matrix.
mod matrix;
pub use matrix::DistanceMatrix;
