//! Stand-in: the name that the original's evaluation hands on from here, and a way to its private `schedule`.
use crate::problem::Eval;

pub struct RouteEvaluator;

impl RouteEvaluator {
    /// The original's `schedule`, its answer in our record.
    pub(crate) fn schedule(
        route: &[usize],
        depot: usize,
        distances: &crate::distance::DistanceMatrix,
        customers: &[crate::models::Customer],
        rest: &crate::models::VehicleBreak,
    ) -> Option<Eval> {
        super::schedule::schedule(route, depot, distances, customers, rest).map(|s| Eval {
            distance: s.distance,
            duration: s.duration,
            lateness: s.lateness,
            lateness_cost: s.lateness_cost,
            rest: s.rest,
        })
    }
}
