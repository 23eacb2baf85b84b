//! Stand-in: the names that the original's evaluation hands on from here. Nothing that is compared uses them.
pub fn check_solution() {}
pub struct Fleet;
