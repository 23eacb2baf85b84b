//! The problems of the benchmarks: days of collection on a map of 60 by 60 kilometres, each from a seed of its own. Distances are
//! kilometres, times are minutes.

use crate::problem::{Break, Problem, Vehicle, PENALTY, WINDOW};
use crate::random::Random;

pub type Routes = Vec<Vec<usize>>;

/// What stands in the way of fewer routes, besides capacity.
#[derive(Clone, Copy, PartialEq)]
pub enum Kind {
    /// A hard window at four stops of five.
    Windows,
    /// Capacity alone.
    Capacity,
    /// A break, limits on distance and duration, and a hard window at two stops of five.
    Break,
    /// A window at four stops of five, every second one with a penalty.
    Soft,
}

/// A day with `stops` stops, the depot being place 0, and its first plan of `count` routes: every route of it fits and passes the check.
pub fn day(kind: Kind, stops: usize, count: usize) -> (Problem, Routes) {
    let mut random = Random::new(stops as u64);
    let points: Vec<(f64, f64)> = (0..=stops).map(|_| (60.0 * random.unit(), 60.0 * random.unit())).collect();
    let mut problem = bare(&points, &mut random);
    let routes = swept(&points, &problem.demand, count, &mut random);
    problem.vehicle.capacity = routes.iter().map(|route| load(&problem, route)).max().unwrap_or(0);
    match kind {
        Kind::Capacity => {}
        Kind::Windows | Kind::Soft => windows(&mut problem, &routes, 80, 20.0, &mut random),
        Kind::Break => {
            windows(&mut problem, &routes, 40, 50.0, &mut random);
            restrict(&mut problem, &routes);
        }
    }
    if kind == Kind::Soft {
        for stop in (1..=stops).step_by(2) {
            problem.flags[stop] |= PENALTY;
            problem.penalty[stop] = 2.0;
        }
    }
    (problem, routes)
}

/// A day of `places` places with one long route, of at most 250 stops, which meets its windows.
pub fn long_route(places: usize) -> (Problem, Vec<usize>) {
    let mut random = Random::new(250);
    let points: Vec<(f64, f64)> = (0..places).map(|_| (60.0 * random.unit(), 60.0 * random.unit())).collect();
    let mut problem = bare(&points, &mut random);
    let mut stops: Vec<usize> = (1..places.min(251)).collect();
    nearest_first(&points, &mut stops);
    windows(&mut problem, &vec![stops.clone()], 80, 20.0, &mut random);
    (problem, stops)
}

/// The places of a map with demands and services, without windows, limits and break.
fn bare(points: &[(f64, f64)], random: &mut Random) -> Problem {
    let n = points.len();
    let mut distances = Vec::with_capacity(n * n);
    for from in points {
        for to in points {
            distances.push(1.3 * between(*from, *to));
        }
    }
    let times = distances.iter().map(|distance| 1.5 * distance).collect();
    Problem {
        places: n,
        demand: (0..n).map(|place| if place == 0 { 0 } else { random.between(1, 9) as i32 }).collect(),
        service: (0..n).map(|place| if place == 0 { 0.0 } else { 10.0 + 20.0 * random.unit() }).collect(),
        ready: vec![0.0; n],
        due: vec![0.0; n],
        penalty: vec![0.0; n],
        flags: vec![0; n],
        distances,
        times,
        vehicle: Vehicle {
            capacity: 0,
            depot: 0,
            fixed_cost: 150.0,
            cost_per_distance: 1.0,
            max_distance: None,
            max_duration: None,
            rest: None,
        },
    }
}

fn between(from: (f64, f64), to: (f64, f64)) -> f64 {
    let (x, y) = (from.0 - to.0, from.1 - to.1);
    (x * x + y * y).sqrt()
}

fn load(problem: &Problem, route: &[usize]) -> i32 {
    route.iter().map(|&stop| problem.demand[stop]).sum()
}

/// The first plan: a sweep around the depot, cut into routes that are three fifths full to full, the nearest stop first in each.
fn swept(points: &[(f64, f64)], demand: &[i32], count: usize, random: &mut Random) -> Routes {
    let angle = |stop: usize| (points[stop].1 - points[0].1).atan2(points[stop].0 - points[0].0);
    let mut stops: Vec<usize> = (1..points.len()).collect();
    stops.sort_by(|&a, &b| angle(a).total_cmp(&angle(b)));
    let fills: Vec<f64> = (0..count).map(|_| 0.6 + 0.4 * random.unit()).collect();
    let unit = demand.iter().sum::<i32>() as f64 / fills.iter().sum::<f64>();
    let mut routes: Routes = vec![vec![]];
    let (mut full, mut loaded) = (unit * fills[0], 0.0);
    for stop in stops {
        if loaded >= full && routes.len() < count {
            full += unit * fills[routes.len()];
            routes.push(vec![]);
        }
        loaded += demand[stop] as f64;
        routes.last_mut().unwrap().push(stop);
    }
    for route in &mut routes {
        nearest_first(points, route);
    }
    routes
}

/// Puts stops in the order in which each is the nearest to the one before.
fn nearest_first(points: &[(f64, f64)], stops: &mut [usize]) {
    let mut at = points[0];
    for i in 0..stops.len() {
        let far = |&k: &usize| between(at, points[stops[k]]);
        let next = (i..stops.len()).min_by(|a, b| far(a).total_cmp(&far(b))).unwrap();
        stops.swap(i, next);
        at = points[stops[i]];
    }
}

/// Gives `percent` of the stops a window around the time at which the routes reach it, with at least `room` minutes after that.
fn windows(problem: &mut Problem, routes: &Routes, percent: usize, room: f64, random: &mut Random) {
    for route in routes {
        let (mut time, mut at) = (0.0, 0);
        for &stop in route {
            time += problem.travel(at, stop);
            if random.chance(percent) {
                problem.flags[stop] |= WINDOW;
                problem.ready[stop] = (time - 60.0 * random.unit() + 10.0).max(0.0);
                problem.due[stop] = time + room + 60.0 * random.unit();
                time = problem.ready[stop].max(time);
            }
            time += problem.service[stop];
            at = stop;
        }
    }
}

/// A break of half an hour, and limits that the routes keep with it.
fn restrict(problem: &mut Problem, routes: &Routes) {
    let (mut longest, mut latest) = (0.0f64, 0.0f64);
    for route in routes {
        let (mut way, mut time, mut at) = (0.0, 0.0, 0);
        for &stop in route {
            way += problem.distance(at, stop);
            time += problem.travel(at, stop);
            if let Some((ready, _)) = problem.window(stop) {
                time = ready.max(time);
            }
            time += problem.service[stop];
            at = stop;
        }
        longest = longest.max(way + problem.distance(at, 0));
        latest = latest.max(time + problem.travel(at, 0));
    }
    problem.vehicle.max_distance = Some(1.05 * longest);
    problem.vehicle.max_duration = Some(1.05 * (latest + 30.0));
    problem.vehicle.rest = Some(Break { earliest: 0.25 * latest, latest: 0.6 * latest, duration: 30.0 });
}
