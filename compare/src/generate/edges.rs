//! Problems built around one edge that random numbers alone would seldom meet.

use super::numbers::domain;
use super::{after, Maker, Routes};
use crate::problem::{Break, Problem, WINDOW};

impl Maker {
    /// Routes, and distances by which one of them put into another saves what a test asks for, to the bit or nearly:
    /// the tolerance of the pool, the gain floor, or nothing.
    pub(super) fn gain(&mut self, problem: &mut Problem) -> Routes {
        let n = problem.places;
        let depot = problem.vehicle.depot;
        let mut stops = self.shuffled_stops(problem);
        let head = stops.remove(0);
        let count = self.random.between(2, 4).min(stops.len());
        let mut routes = self.split(stops, count);
        let into = &routes[self.random.below(count)];
        let (first, last) = (into[0], into[into.len() - 1]);
        let at = self.random.below(count + 1);
        routes.insert(at, vec![head]);
        // every way leads through the depot, so that the other routes neither save nor cost
        let hub: Vec<f64> = (0..n).map(|i| if i == depot { 0.0 } else { self.number() }).collect();
        for i in 0..n * n {
            problem.distances[i] = hub[i / n] + hub[i % n];
        }
        // one stop is far from everywhere, and the one to be moved is far from all but the depot and its new place
        let far = self.random.pick(&[1e12, 1e12, 1e12, 7e11, 1e9]);
        for i in 0..n {
            problem.distances[i * n + first] = far;
            if i != depot {
                problem.distances[i * n + head] = 1e12;
                problem.distances[head * n + i] = 1e12;
            }
        }
        problem.vehicle.capacity = i32::MAX;
        problem.vehicle.fixed_cost = if self.random.chance(60) { 0.0 } else { self.number() };
        problem.vehicle.cost_per_distance = 1.0;
        let fixed = problem.vehicle.fixed_cost;
        let distance = |from: usize, to: usize| problem.distances[from * n + to];
        let walked = |route: &Vec<usize>| {
            let mut sum = distance(depot, route[0]);
            for leg in route.windows(2) {
                sum += distance(leg[0], leg[1]);
            }
            sum + distance(route[route.len() - 1], depot)
        };
        let before: f64 = routes.iter().map(|route| walked(route) + fixed).sum();
        let bit = before.next_up() - before;
        let save = match self.random.below(8) {
            0..=4 => 1e-12 * before + bit * (self.random.below(5) as f64 - 2.0),
            5 | 6 => 1e-12 * far,
            _ => 0.0,
        };
        let leg = distance(depot, head) + fixed + distance(last, depot) - save;
        problem.distances[last * n + head] = self.near(leg);
        if self.random.chance(15) {
            problem.vehicle.max_distance = Some(1e12);
        }
        routes
    }

    /// Every place but the depot, in a random order.
    fn shuffled_stops(&mut self, problem: &Problem) -> Vec<usize> {
        let depot = problem.vehicle.depot;
        let mut stops: Vec<usize> = (0..problem.places).filter(|&i| i != depot).collect();
        self.random.shuffle(&mut stops);
        stops
    }

    /// Two routes, [x, y] and another: x goes into the other for less than nothing, and y then for more than is saved,
    /// so that together they pay, or just do not.
    pub(super) fn short_way(&mut self, problem: &mut Problem) -> Routes {
        let n = problem.places;
        let depot = problem.vehicle.depot;
        let stops = self.shuffled_stops(problem);
        let (x, y, next) = (stops[0], stops[1], stops[2]);
        let (leg, to_x, x_to_y, gain) = (self.number(), self.number(), self.number(), self.number());
        let part = self.random.pick(&[0.0, 0.3, 0.5, 0.7, 1.0]);
        let to_y = leg + to_x + x_to_y + gain * part;
        problem.distances.fill(leg);
        for i in 0..n {
            problem.distances[i * n + y] = to_y;
            problem.distances[y * n + i] = to_y;
        }
        problem.distances[depot * n + x] = to_x;
        problem.distances[x * n + y] = x_to_y;
        problem.distances[depot * n + next] = to_x + leg + gain;
        // y does not go in behind x
        problem.distances[y * n + next] = 1e12;
        for distance in &mut problem.distances {
            *distance = domain(*distance);
        }
        problem.demand = vec![0; n];
        problem.demand[x] = 1;
        problem.vehicle.fixed_cost = 0.0;
        problem.vehicle.capacity = i32::MAX;
        vec![stops[..2].to_vec(), stops[2..].to_vec()]
    }

    /// Two routes, [p, q] and [c]: c goes before p, and q is then reached when it is due, to the bit, or left to be
    /// home by the limit. The sizes of the legs are drawn so that the latest arrival at p is rounded, cancelled, close
    /// to 0, or none by rounding. Sometimes another stop must leave for c.
    pub(super) fn quick(&mut self, problem: &mut Problem) -> Routes {
        let n = problem.places;
        let depot = problem.vehicle.depot;
        let stops = self.shuffled_stops(problem);
        let (c, p, q) = (stops[0], stops[1], stops[2]);
        let edge = self.random.below(5);
        let (size, beyond) = match edge {
            0 => (0.0, self.random.pick(&[1.0, 40.0])),
            1 => (self.random.pick(&[1e9, 1e11]), self.random.pick(&[1.0, 1e9, 1e11])),
            2 => (self.random.pick(&[1.0, 40.0]), self.random.pick(&[1e7, 1e8, 1e9, 1e10])),
            _ => (self.random.pick(&[1.0, 40.0]), self.random.pick(&[1.0, 40.0])),
        };
        problem.times.clear();
        for i in 0..n {
            problem.distances[i * n + c] = 1e12;
            problem.distances[c * n + i] = 1e12;
        }
        for (from, to, size) in [(depot, c, size), (c, p, size), (depot, p, size), (p, q, beyond)] {
            problem.distances[from * n + to] = self.random.unit() * size;
        }
        problem.service[c] = if self.random.chance(50) { self.random.unit() * size } else { 0.0 };
        problem.service[p] = if edge == 0 || self.random.chance(60) { self.random.unit() * beyond } else { 0.0 };
        let mut time = 0.0;
        let mut from = depot;
        for place in [c, p, q] {
            let arrival = time + problem.travel(from, place);
            if place == p && edge == 3 {
                problem.flags[p] |= WINDOW;
                problem.ready[p] = domain(arrival * self.random.pick(&[1.1, 1.7, 2.3, 3.0]));
                problem.due[p] = 1e12;
            }
            if place == q {
                problem.flags[q] |= WINDOW;
                problem.ready[q] = if edge == 4 { domain(arrival * 1.5) } else { 0.0 };
                problem.due[q] = if edge == 4 { 1e12 } else { domain(arrival) };
            }
            time = after(problem, arrival, place);
            from = place;
        }
        if edge == 4 {
            // not due, but home by the limit
            problem.vehicle.max_duration = Some(domain(time + problem.travel(q, depot)));
        }
        problem.vehicle.capacity = i32::MAX;
        let mut routes = vec![vec![p, q], vec![c]];
        if self.random.chance(50) {
            routes.swap(0, 1);
        }
        if n > 5 && self.random.chance(60) {
            // one more stop, that must leave for c and fits with another
            let (x, z) = (stops[3], stops[4]);
            routes.iter_mut().find(|route| route.len() == 2).unwrap().push(x);
            routes.push(vec![z]);
            problem.demand = vec![0; n];
            problem.demand[c] = 2;
            problem.demand[x] = 1;
            problem.demand[z] = 1;
            problem.vehicle.capacity = 2;
        }
        routes
    }

    /// A route of three stops with a break at the first, a wait at the second, and the third reached when it is due
    /// with the break: by two roundings it may be reached too late without it. Sometimes there is no break.
    pub(super) fn labels(&mut self, problem: &mut Problem) -> Routes {
        let n = problem.places;
        let depot = problem.vehicle.depot;
        let stops = self.shuffled_stops(problem);
        let (a, b, c) = (stops[0], stops[1], stops[2]);
        problem.times.clear();
        problem.flags[b] |= WINDOW;
        problem.due[b] = 1e12;
        let mut rest = Break { earliest: 0.0, latest: 1e12, duration: 0.0 };
        let breaks = self.random.chance(65);
        let mut arrival = 0.0;
        // drawn again a few times until rounding does it
        for _ in 0..12 {
            for (from, to) in [(depot, a), (a, b), (b, c)] {
                problem.distances[from * n + to] = self.random.unit() * self.random.pick(&[0.3, 1.0, 5.0]);
            }
            if breaks {
                rest.duration = self.random.unit() * self.random.pick(&[1.0, 4.0]);
                problem.vehicle.rest = Some(rest);
            }
            let without = after(problem, problem.travel(depot, a), a) + problem.travel(a, b);
            arrival = after(problem, problem.travel(depot, a) + rest.duration, a) + problem.travel(a, b);
            problem.ready[b] = domain(arrival * self.random.pick(&[1.7, 2.3, 3.0, 3.7]));
            let (start, other) = (after(problem, arrival, b), after(problem, without, b));
            if start < other || !breaks && start < problem.ready[b] + problem.service[b] {
                break;
            }
        }
        problem.flags[c] |= WINDOW;
        problem.ready[c] = 0.0;
        problem.due[c] = domain(after(problem, arrival, b) + problem.travel(b, c));
        problem.vehicle.capacity = i32::MAX;
        let mut routes = vec![vec![a, b, c]];
        routes.extend(stops[3..].iter().map(|&stop| vec![stop]));
        routes
    }
}
