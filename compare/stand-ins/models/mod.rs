//! Stand-in: the module that holds the original's customer and vehicle.
mod customer;
mod vehicle;
pub use customer::{Customer, TimeWindow};
pub use vehicle::{Vehicle, VehicleBreak};
