//! The side of the model: document 01's steps in our own words, with loops and indexes as the port has them, and the
//! events that they meet. Only the entry checks stand before both sides; that the two agree is what a run shows.

mod elimination;
mod pool;
mod route;

use std::iter::once;

use crate::checks::refusal;
use crate::events::{Event, Events};
use crate::problem::{Answer, Call, Plan, Problem, Side};
use pool::Run;

type Routes = Vec<Vec<usize>>;

/// The model, with the events of every call it has answered.
#[derive(Default)]
pub struct Model {
    pub events: Events,
}

impl Side for Model {
    fn name(&self) -> &'static str {
        "model"
    }

    fn call(&mut self, problem: &Problem, plan: &mut Plan, call: &Call) -> Answer {
        if let Some(number) = refusal(problem, plan, call) {
            return Answer::Refused(number);
        }
        if let Call::TimeWindowNew { ready, due } = call {
            let made = ready.is_finite() && due.is_finite() && ready <= due;
            self.events.add(if made { Event::WindowNew } else { Event::NoWindowNew });
            return Answer::Window(made.then_some((*ready, *due)));
        }
        let mut steps = Steps::new(problem, &mut self.events);
        let route: Vec<usize> = call.route().unwrap_or(&[]).iter().map(|&stop| stop as usize).collect();
        let stops = route.iter().copied();
        match call {
            Call::Minimise { limit, tape, clock, .. } => {
                let mut run = Run { limit: *limit, clock: *clock, steps: 0, tape, draws: 0 };
                let routes = steps.minimise(plan.routes(), &mut run);
                Answer::Minimised { routes: plan.write(&routes), steps: run.steps, draws: run.draws }
            }
            Call::Eliminate { .. } => {
                let routes = steps.eliminate(plan.routes());
                Answer::Eliminated { routes: plan.write(&routes) }
            }
            Call::RouteFeasible { .. } => {
                let feasible = steps.passes(stops);
                if route.is_empty() && !feasible {
                    self.events.add(Event::EmptyNotFeasible);
                }
                Answer::Feasible(feasible)
            }
            Call::RouteEval { .. } => Answer::Route(steps.route_eval(stops)),
            Call::EffectiveCost { .. } => Answer::Value(steps.effective_cost(stops)),
            Call::Schedule { rest, .. } => Answer::Route(steps.walk(stops, Some(*rest))),
            Call::RouteDistance { .. } => Answer::Value(steps.route_distance(&route)),
            Call::LatenessBound => Answer::Value(steps.lateness_bound()),
            Call::GainFloor => Answer::Value(steps.gain_floor()),
            Call::TimeWindowNew { .. } => unreachable!("answered above"),
        }
    }
}

/// The steps on one problem.
struct Steps<'a> {
    problem: &'a Problem,
    events: &'a mut Events,
    depot: usize,
    fixed: f64,
    check_needed: bool,
    soft: bool,
}

/// The steps' own judgement of routes, for what is said of a plan.
pub struct Judge<'a> {
    problem: &'a Problem,
    events: Events,
}

impl<'a> Judge<'a> {
    pub fn new(problem: &'a Problem) -> Self {
        Judge { problem, events: Events::new() }
    }

    pub fn fits_and_passes(&mut self, route: &[usize]) -> bool {
        Steps::new(self.problem, &mut self.events).fits_and_passes(route)
    }

    /// The computed cost of routes that are not empty.
    pub fn cost(&mut self, routes: &[Vec<usize>]) -> f64 {
        Steps::new(self.problem, &mut self.events).cost(routes)
    }
}

/// A route with a stop put in, front to back.
fn trial(route: &[usize], at: usize, stop: usize) -> impl Iterator<Item = usize> + '_ {
    route[..at].iter().copied().chain(once(stop)).chain(route[at..].iter().copied())
}

/// The routes' numbers by length, equal lengths in plan order.
fn by_length(routes: &Routes) -> Vec<usize> {
    let mut order: Vec<usize> = (0..routes.len()).collect();
    order.sort_unstable_by_key(|&k| (routes[k].len(), k));
    order
}

/// The routes but one.
fn without(routes: &Routes, one: usize) -> Routes {
    let mut rest = routes.clone();
    rest.remove(one);
    rest
}

impl<'a> Steps<'a> {
    fn new(problem: &'a Problem, events: &'a mut Events) -> Self {
        let places = 0..problem.places;
        let vehicle = &problem.vehicle;
        let limited = vehicle.max_distance.is_some() || vehicle.max_duration.is_some() || vehicle.rest.is_some();
        let fixed = if vehicle.cost_per_distance == 0.0 {
            events.add(Event::NoFixedCost);
            0.0
        } else {
            vehicle.fixed_cost / vehicle.cost_per_distance
        };
        Steps {
            problem,
            events,
            depot: vehicle.depot,
            fixed,
            check_needed: limited || places.clone().any(|i| problem.window(i).is_some()),
            soft: places.clone().any(|i| problem.window(i).is_some() && problem.penalty(i).is_some()),
        }
    }

    fn load(&self, route: &[usize]) -> i64 {
        route.iter().map(|&stop| self.problem.demand[stop] as i64).sum()
    }

    fn fits(&mut self, load: i64) -> bool {
        let capacity = self.problem.vehicle.capacity as i64;
        if load == capacity {
            self.events.add(Event::FullToTheUnit);
        }
        if load < 0 {
            self.events.add(Event::NegativeLoad);
        }
        if load > capacity {
            self.events.add(Event::Full);
        }
        load <= capacity
    }

    fn fits_and_passes(&mut self, route: &[usize]) -> bool {
        self.fits(self.load(route)) && (!self.check_needed || self.passes(route.iter().copied()))
    }

    /// What a stop adds to a route's distance at a place.
    fn insertion_cost(&self, route: &[usize], at: usize, stop: usize) -> f64 {
        let from = if at == 0 { self.depot } else { route[at - 1] };
        let to = if at == route.len() { self.depot } else { route[at] };
        let p = self.problem;
        p.distance(from, stop) + p.distance(stop, to) - p.distance(from, to)
    }

    /// The pool's cost: distance and fixed cost in distance, summed in route order.
    fn cost(&self, routes: &[Vec<usize>]) -> f64 {
        routes.iter().fold(0.0, |sum, route| sum + (self.route_distance(route) + self.fixed))
    }

    fn drop_empty(&mut self, routes: &mut Routes) {
        if routes.iter().any(|route| route.is_empty()) {
            self.events.add(Event::EmptyDropped);
        }
        routes.retain(|route| !route.is_empty());
        let lengths: Vec<usize> = routes.iter().map(|route| route.len()).collect();
        if (1..lengths.len()).any(|k| lengths[..k].contains(&lengths[k])) {
            self.events.add(Event::EqualLengths);
        }
    }
}
