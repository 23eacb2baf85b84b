//! The entry checks, rows 1 to 9 of document 01's table in its order.

use crate::problem::{Break, Call, Plan, Problem, PENALTY, WINDOW};

/// The first row of the table that applies to a call.
pub fn refusal(problem: &Problem, plan: &Plan, call: &Call) -> Option<u8> {
    let beside = match call {
        Call::TimeWindowNew { .. } => return None,
        Call::Schedule { rest, .. } => Some(rest),
        _ => None,
    };
    let refused = of_problem(problem, beside);
    if refused.is_some() {
        return refused;
    }
    match call {
        Call::Minimise { limit, tape, cells, .. } => of_plan(problem, plan).or(first(&[
            (7, tape.is_empty()),
            (8, *limit > 65_535),
            (9, cells.u16s < 8_192 || cells.f64s < 2_048),
        ])),
        Call::Eliminate { cells } => of_plan(problem, plan).or(first(&[(9, cells.u16s < 8_192 || cells.f64s < 2_048)])),
        Call::RouteFeasible { route }
        | Call::RouteEval { route }
        | Call::EffectiveCost { route }
        | Call::Schedule { route, .. }
        | Call::RouteDistance { route } => first(&[(6, !stops_are_good(problem, route))]),
        Call::LatenessBound | Call::GainFloor | Call::TimeWindowNew { .. } => None,
    }
}

fn first(rows: &[(u8, bool)]) -> Option<u8> {
    rows.iter().find(|row| row.1).map(|row| row.0)
}

/// Rows 1 to 4. `beside` is the break that a call is given beside the problem.
fn of_problem(p: &Problem, beside: Option<&Break>) -> Option<u8> {
    let n = p.places;
    if n == 0 || n > 256 {
        return Some(1);
    }
    let records = [p.demand.len(), p.service.len(), p.ready.len(), p.due.len(), p.penalty.len(), p.flags.len()];
    let times = p.times.is_empty() || p.times.len() == n * n;
    if records.iter().any(|&length| length != n) || p.distances.len() != n * n || !times {
        return Some(1);
    }
    first(&[
        (2, !numbers_are_good(p, beside)),
        (3, (0..n).any(|i| p.flags[i] & WINDOW != 0 && p.ready[i] > p.due[i])),
        (4, p.vehicle.depot >= n),
    ])
}

/// Row 2's domain of a float.
fn good(value: f64) -> bool {
    value.is_finite() && value.is_sign_positive() && value <= 1e12
}

fn break_is_good(rest: &Break) -> bool {
    good(rest.earliest) && good(rest.latest) && good(rest.duration)
}

fn numbers_are_good(p: &Problem, beside: Option<&Break>) -> bool {
    for i in 0..p.places {
        let window = p.flags[i] & WINDOW == 0 || good(p.ready[i]) && good(p.due[i]);
        let penalty = p.flags[i] & PENALTY == 0 || good(p.penalty[i]);
        let demand = -1_000_000 <= p.demand[i] && p.demand[i] <= 1_000_000;
        if p.flags[i] > 3 || !window || !penalty || !demand || !good(p.service[i]) {
            return false;
        }
    }
    let v = &p.vehicle;
    good(v.fixed_cost)
        && good(v.cost_per_distance)
        && !(v.cost_per_distance > 0.0 && v.cost_per_distance < 1e-6)
        && v.max_distance.is_none_or(good)
        && v.max_duration.is_none_or(good)
        && v.rest.as_ref().is_none_or(break_is_good)
        && beside.is_none_or(break_is_good)
        && p.distances.iter().all(|&distance| good(distance))
        && p.times.iter().all(|&time| good(time))
}

/// Rows 5 and 6 of a plan.
fn of_plan(problem: &Problem, plan: &Plan) -> Option<u8> {
    let sum: u64 = plan.lengths.iter().map(|&length| length as u64).sum();
    first(&[
        (5, plan.lengths.len() > 256 || sum != plan.stops.len() as u64),
        (6, !stops_are_good(problem, &plan.stops)),
    ])
}

/// Row 6: each stop is a place, not the depot, and present once. Row 1 leaves at most 256 places.
fn stops_are_good(problem: &Problem, stops: &[u16]) -> bool {
    let mut seen = [false; 256];
    for &stop in stops {
        let stop = stop as usize;
        if stop >= problem.places || stop == problem.vehicle.depot || seen[stop] {
            return false;
        }
        seen[stop] = true;
    }
    true
}
