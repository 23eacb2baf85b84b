//! What demand 3 says of a list of calls, asked after every accepted minimise and eliminate call.

use crate::model::Judge;
use crate::problem::{Answer, Call, Plan, Problem};

/// A list of calls on one problem, from its first plan: the sum of M over the accepted minimise calls so far, and all
/// their steps and draws.
pub struct Claim<'a> {
    problem: &'a Problem,
    first: &'a Plan,
    limits: u128,
    steps: u128,
    draws: u128,
}

impl<'a> Claim<'a> {
    pub fn of(problem: &'a Problem, first: &'a Plan) -> Claim<'a> {
        Claim { problem, first, limits: 0, steps: 0, draws: 0 }
    }

    /// The first thing that the list does not keep with one more call; `before` and `after` are the plan on both sides
    /// of it.
    pub fn broken(&mut self, before: &Plan, after: &Plan, call: &Call, answer: &Answer) -> Option<&'static str> {
        let (routes, minimise) = match answer {
            Answer::Minimised { routes, .. } => (*routes as usize, true),
            Answer::Eliminated { routes } => (*routes as usize, false),
            _ => return None,
        };
        if let (Call::Minimise { limit, .. }, Answer::Minimised { steps, draws, .. }) = (call, answer) {
            self.limits += *limit as u128;
            self.steps += *steps as u128;
            self.draws += *draws as u128;
        }
        if sorted(&after.stops) != sorted(&self.first.stops) {
            return Some("the places are not the first plan's");
        }
        let sum: usize = after.lengths.iter().map(|&length| length as usize).sum();
        if routes > after.lengths.len() || sum != after.stops.len() || after.lengths[routes..].iter().any(|&l| l != 0) {
            return Some("the lengths are not a plan's");
        }
        let (was, is) = (filled(before), filled(after));
        if is.len() > was.len() {
            return Some("there are more routes");
        }
        let given = filled(self.first);
        let mut judge = Judge::new(self.problem);
        if is.iter().any(|route| !given.contains(route) && !judge.fits_and_passes(route)) {
            return Some("a route is not the first plan's and does not fit and pass the check");
        }
        let n = given.len() as u128;
        if self.steps > self.limits * (n * (n + 1) / 2) {
            return Some("all steps are more than the sum of M times n (n + 1) / 2");
        }
        if self.draws > 500 * self.steps {
            return Some("all draws are more than 500 times the steps");
        }
        if minimise && is.len() < was.len() && judge.cost(&is) >= judge.cost(&was) {
            return Some("there are fewer routes and the cost does not fall");
        }
        // Two tests beyond demand 3, of each call alone: it takes no more than K steps, and a step draws 500 words or none,
        // since the pool has no empty routes.
        if let (Call::Minimise { clock, .. }, Answer::Minimised { steps, draws, .. }) = (call, answer) {
            if steps > clock || draws % 500 != 0 || draws / 500 > *steps {
                return Some("a call's steps are more than K, or its draws not 500 for some of its steps");
            }
        }
        None
    }
}

fn sorted(stops: &[u16]) -> Vec<u16> {
    let mut stops = stops.to_vec();
    stops.sort_unstable();
    stops
}

/// The routes of a plan that are not empty.
fn filled(plan: &Plan) -> Vec<Vec<usize>> {
    plan.routes().into_iter().filter(|route| !route.is_empty()).collect()
}
