//! Stand-in: `route_distance`, which lies outside the files at hand, from document 01.
use crate::distance::DistanceMatrix;

pub fn or_opt_improve() {}

/// The sum of a route's legs in stop order, depot to depot; 0 for an empty route.
pub fn route_distance(route: &[usize], depot: usize, distances: &DistanceMatrix) -> f64 {
    let mut sum = 0.0;
    let mut from = depot;
    for &to in route {
        sum += distances.get(from, to);
        from = to;
    }
    if route.is_empty() {
        sum
    } else {
        sum + distances.get(from, depot)
    }
}
