//! Random problems, plans and calls, and damaged ones with the refusal that each must get.
//!
//! Windows, limits, breaks and capacity are drawn around what the plan, or a plan with its stops arranged in fewer
//! routes, comes to along the way: so they are met or missed by a bit, and there is something to find.

mod calls;
mod damage;
mod edges;
mod numbers;
mod problems;
mod whole;

use crate::problem::{Call, Plan, Problem};
use crate::random::Random;
use numbers::Scale;
pub use whole::whole;

/// A call with the number that it must be refused with, or none where it must be accepted.
pub struct Asked {
    pub call: Call,
    pub refusal: Option<u8>,
}

/// One problem, a first plan, and a list of calls, each on the plan as the last one left it.
pub struct Case {
    pub seed: u64,
    pub problem: Problem,
    pub plan: Plan,
    pub calls: Vec<Asked>,
}

type Routes = Vec<Vec<usize>>;

/// What a problem is made to press on.
#[derive(Clone, Copy, PartialEq)]
enum Kind {
    /// Anything, in any mixture.
    General,
    /// Capacity alone, so tight that stops must be ejected.
    Capacity,
    /// Windows met to the bit along routes that are there to be found.
    Windows,
    /// A break, and windows met to the bit with it.
    Break,
    /// A gain at the edge of a tolerance.
    Gain,
    /// A gain that falls and rises with each stop.
    ShortWay,
    /// One insertion at the edge of the quick test.
    Quick,
    /// A break after which a stop is reached before it is reached without one, by rounding.
    Labels,
}

/// The seed of a run's case number `index`.
pub fn case_seed(seed: u64, index: u64) -> u64 {
    Random::new(seed.wrapping_mul(0x2545_f491_4f6c_dd1d).wrapping_add(index)).word()
}

/// The case of a seed, with at most `most` places.
pub fn case(seed: u64, most: usize) -> Case {
    let mut maker = Maker { random: Random::new(seed), scale: Scale::Whole };
    maker.case(seed, most)
}

/// Makes a case: the random words, and the scale of the problem's numbers.
struct Maker {
    random: Random,
    scale: Scale,
}

impl Maker {
    fn case(&mut self, seed: u64, most: usize) -> Case {
        let kind = match self.random.below(100) {
            0..=42 => Kind::General,
            43..=53 => Kind::Capacity,
            54..=66 => Kind::Windows,
            67..=77 => Kind::Break,
            78..=86 => Kind::Gain,
            87..=88 => Kind::ShortWay,
            89..=94 => Kind::Quick,
            _ => Kind::Labels,
        };
        let places = match kind {
            Kind::General => self.places(),
            Kind::Capacity => self.random.between(5, 13),
            Kind::Gain | Kind::ShortWay => self.random.between(4, 8),
            Kind::Quick => self.random.between(4, 7),
            Kind::Labels => self.random.between(4, 6),
            _ => self.random.between(3, 9),
        };
        let (kind, places) = if places > most { (Kind::General, most) } else { (kind, places) };
        self.scale = self.scale_for(kind);
        let mut problem = self.problem(places);
        let routes = match kind {
            Kind::Gain => self.gain(&mut problem),
            Kind::ShortWay => self.short_way(&mut problem),
            Kind::Quick => self.quick(&mut problem),
            Kind::Labels => self.labels(&mut problem),
            _ => self.routes(kind, &problem),
        };
        let mut target = routes.clone();
        if matches!(kind, Kind::General | Kind::Capacity | Kind::Windows | Kind::Break) {
            target = self.target(&routes);
            self.fit(kind, &mut problem, &routes, &target);
        }
        let mut plan = Plan::of(&self.with_empty(routes.clone()));
        let mut calls = Vec::new();
        if self.random.chance(if kind == Kind::General { 40 } else { 2 }) {
            self.damaged(&mut problem, &mut plan, &target, &mut calls);
        } else {
            self.plan_calls(kind, &problem, &plan, &mut calls);
            if kind == Kind::Labels {
                let route: Vec<u16> = routes[0].iter().map(|&stop| stop as u16).collect();
                calls.push(Asked { call: Call::RouteFeasible { route: route.clone() }, refusal: None });
                calls.push(Asked { call: Call::RouteEval { route }, refusal: None });
            }
            let more = if kind == Kind::Break { 4 } else { 0 };
            for _ in 0..self.random.between(1, 4) + more {
                let call = self.route_call(&problem, &routes, &target);
                calls.push(Asked { call, refusal: None });
            }
        }
        Case { seed, problem, plan, calls }
    }

    fn places(&mut self) -> usize {
        match self.random.below(1000) {
            0..=14 => 1,
            15..=64 => 2,
            65..=179 => 3,
            180..=749 => self.random.between(4, 9),
            750..=939 => self.random.between(10, 16),
            940..=985 => self.random.between(17, 40),
            986..=994 => self.random.between(41, 120),
            995..=997 => self.random.between(121, 255),
            _ => 256,
        }
    }
}

/// When the service of a stop ends after an arrival, whether its window is missed or not.
fn after(problem: &Problem, arrival: f64, stop: usize) -> f64 {
    let mut start = arrival;
    if let Some((ready, _)) = problem.window(stop) {
        if arrival < ready {
            start = arrival + (ready - arrival);
        }
    }
    start + problem.service[stop]
}
