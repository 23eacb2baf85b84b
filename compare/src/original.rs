//! The side of the original: its own functions on its own types, behind the entry checks.

use std::mem::take;

use crate::checks::refusal;
use crate::distance::DistanceMatrix;
use crate::evaluation::{effective_cost, lateness_bound, route_eval, route_feasible, RouteEvaluator, RouteLimits};
use crate::local_search::{eliminate_routes, gain_floor, minimize_routes, route_distance};
use crate::models::{Customer, TimeWindow, Vehicle, VehicleBreak};
use crate::problem::{Answer, Break, Call, Eval, Plan, Problem, Side};
use crate::stand_ins::{Deadline, Tape};

pub struct Original;

impl Side for Original {
    fn name(&self) -> &'static str {
        "original"
    }

    fn call(&mut self, problem: &Problem, plan: &mut Plan, call: &Call) -> Answer {
        if let Some(number) = refusal(problem, plan, call) {
            return Answer::Refused(number);
        }
        if let Call::TimeWindowNew { ready, due } = call {
            let window = TimeWindow::new(*ready, *due);
            return Answer::Window(window.map(|window| (window.ready(), window.due())));
        }
        let mut ready = Ready::new(problem, plan, call);
        let answer = ready.make();
        if call.has_plan() {
            plan.write(&ready.routes);
        }
        answer
    }
}

/// A call that no row refuses, with all that it takes in the original's own form. `time_window_new` is none of these.
pub struct Ready<'a> {
    call: &'a Call,
    places: Vec<Customer>,
    distances: DistanceMatrix,
    vehicle: Vehicle,
    limits: RouteLimits,
    route: Vec<usize>,
    /// The plan, and after `make` the one that the call answers.
    pub routes: Vec<Vec<usize>>,
}

impl<'a> Ready<'a> {
    pub fn new(problem: &Problem, plan: &Plan, call: &'a Call) -> Self {
        let vehicle = vehicle(problem);
        Ready {
            call,
            places: places(problem),
            distances: distances(problem),
            limits: RouteLimits::of(&vehicle),
            vehicle,
            route: call.route().map_or(vec![], wide),
            routes: if call.has_plan() { plan.routes() } else { vec![] },
        }
    }

    /// Makes the call.
    pub fn make(&mut self) -> Answer {
        let Ready { call, places, distances, vehicle, limits, route, routes } = self;
        let depot = vehicle.depot_id();
        match call {
            Call::Minimise { limit, tape, clock, .. } => {
                let mut tape = Tape::new(tape);
                let clock = Deadline::new(*clock);
                *routes = minimize_routes(take(routes), places, distances, vehicle, *limit, &mut tape, &clock);
                Answer::Minimised { routes: routes.len() as u64, steps: clock.steps(), draws: tape.draws }
            }
            Call::Eliminate { .. } => {
                *routes = eliminate_routes(take(routes), places, distances, vehicle);
                Answer::Eliminated { routes: routes.len() as u64 }
            }
            Call::RouteFeasible { .. } => Answer::Feasible(route_feasible(route, depot, distances, places, limits)),
            Call::RouteEval { .. } => {
                Answer::Route(route_eval(route, depot, distances, places, limits).map(|eval| Eval {
                    distance: eval.distance,
                    duration: eval.duration,
                    lateness: eval.lateness,
                    lateness_cost: eval.lateness_cost,
                    rest: eval.rest,
                }))
            }
            Call::EffectiveCost { .. } => Answer::Value(effective_cost(route, depot, distances, places, limits)),
            Call::Schedule { rest, .. } => {
                Answer::Route(RouteEvaluator::schedule(route, depot, distances, places, &rested(*rest)))
            }
            Call::RouteDistance { .. } => Answer::Value(route_distance(route, depot, distances)),
            Call::LatenessBound => Answer::Value(lateness_bound(places, distances)),
            Call::GainFloor => Answer::Value(gain_floor(distances)),
            Call::TimeWindowNew { .. } => unreachable!("it has no problem"),
        }
    }

    /// Makes another call on the plan that the last one left: minimise or eliminate.
    pub fn then(&mut self, call: &'a Call) -> Answer {
        self.call = call;
        self.make()
    }

    pub fn distance(&self, route: &[usize]) -> f64 {
        route_distance(route, self.vehicle.depot_id(), &self.distances)
    }
}

fn wide(route: &[u16]) -> Vec<usize> {
    route.iter().map(|&stop| stop as usize).collect()
}

fn rested(rest: Break) -> VehicleBreak {
    VehicleBreak::new(rest.earliest, rest.latest, rest.duration)
}

/// The places as the original's customers; their coordinates are not read by what is compared.
fn places(problem: &Problem) -> Vec<Customer> {
    (0..problem.places)
        .map(|i| {
            let mut customer = Customer::new(i, 0.0, 0.0, problem.demand[i], problem.service[i]);
            if let Some((ready, due)) = problem.window(i) {
                customer = customer.with_time_window(TimeWindow::new(ready, due).expect("rows 2 and 3"));
            }
            if let Some(penalty) = problem.penalty(i) {
                customer = customer.with_lateness_penalty(penalty).expect("row 2");
            }
            customer
        })
        .collect()
}

fn distances(problem: &Problem) -> DistanceMatrix {
    let distances = DistanceMatrix::from_data(problem.places, problem.distances.clone()).expect("row 1");
    if problem.times.is_empty() {
        distances
    } else {
        distances.with_travel_times(problem.times.clone()).expect("row 1")
    }
}

fn vehicle(problem: &Problem) -> Vehicle {
    let v = &problem.vehicle;
    let mut vehicle = Vehicle::new(0, v.capacity)
        .with_depot(v.depot)
        .with_fixed_cost(v.fixed_cost)
        .with_cost_per_distance(v.cost_per_distance);
    if let Some(most) = v.max_distance {
        vehicle = vehicle.with_max_distance(most);
    }
    if let Some(most) = v.max_duration {
        vehicle = vehicle.with_max_duration(most);
    }
    if let Some(rest) = v.rest {
        vehicle = vehicle.with_break(rested(rest));
    }
    vehicle
}
