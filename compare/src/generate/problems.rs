//! Random problems and plans, fitted to each other.

use super::numbers::{domain, Scale};
use super::{after, Kind, Maker, Routes};
use crate::problem::{Break, Problem, Vehicle, PENALTY, WINDOW};

/// How windows are drawn around the time at which a stop is reached.
#[derive(Clone, Copy)]
enum Windows {
    /// This many of a hundred are drawn to the bit, the others with room.
    Tight(usize),
    /// Stops that wait, and stops that are reached when they are due, so that rounding decides.
    Pressed,
}

impl Maker {
    // ---- the problem

    /// A problem without windows, penalties, limits and break, and with capacity 0.
    pub(super) fn problem(&mut self, n: usize) -> Problem {
        let distances = self.matrix(n);
        let times = match self.random.below(10) {
            0..=5 => vec![],
            6 => distances.iter().map(|&d| domain(d * 1.5)).collect(),
            7 => distances.iter().map(|&d| domain(d * 0.1)).collect(),
            _ => self.matrix(n),
        };
        let service_percent = self.random.pick(&[0, 0, 50, 100]);
        let shrink = self.random.pick(&[1.0, 0.5, 0.1]);
        let service =
            (0..n).map(|_| if self.random.chance(service_percent) { self.number() * shrink } else { 0.0 }).collect();
        let kind = self.random.below(12);
        let demand = (0..n).map(|_| self.demand(kind)).collect();
        let fixed_cost = match self.random.below(5) {
            0 | 1 => 0.0,
            2 => 1e12,
            _ => self.number(),
        };
        let per_distance = self.number();
        let cost_per_distance = match self.random.below(8) {
            0 => 0.0,
            1 => 1e-6,
            2 => 1e12,
            3 if per_distance >= 1e-6 => per_distance,
            _ => 1.0,
        };
        Problem {
            places: n,
            demand,
            service,
            ready: (0..n).map(|_| self.garbage()).collect(),
            due: (0..n).map(|_| self.garbage()).collect(),
            penalty: (0..n).map(|_| self.garbage()).collect(),
            flags: vec![0; n],
            distances,
            times,
            vehicle: Vehicle {
                capacity: 0,
                depot: if self.random.chance(60) { 0 } else { self.random.below(n) },
                fixed_cost,
                cost_per_distance,
                max_distance: None,
                max_duration: None,
                rest: None,
            },
        }
    }

    fn demand(&mut self, kind: usize) -> i32 {
        let r = &mut self.random;
        match kind {
            0 | 1 => r.between(1, 9) as i32,
            2 | 3 => r.pick(&[1, 1, 2, 2, 3, 5, 7]),
            4..=6 => r.pick(&[2, 2, 3, 3, 3, 5, 6]),
            7 => r.between(4, 7) as i32,
            8 => 1,
            9 => 0,
            10 => r.between(0, 14) as i32 - 5,
            _ => r.pick(&[-1_000_000, 1_000_000, 999_999, -3, 0, 5]),
        }
    }

    fn matrix(&mut self, n: usize) -> Vec<f64> {
        let style = self.random.below(12);
        let own_diagonal = self.random.chance(25);
        let unit = match self.scale {
            Scale::Huge => self.random.pick(&[1e10, 1e9, 0.1]),
            Scale::Tiny => self.random.pick(&[1e-6, 1e-7, 5e-324]),
            Scale::Tenths => 0.1,
            _ => 1.0,
        };
        let whole = matches!(self.scale, Scale::Whole | Scale::Tenths);
        let hub: Vec<f64> = (0..n).map(|_| self.number()).collect();
        let points: Vec<(f64, f64)> =
            (0..n).map(|_| (self.random.below(21) as f64, self.random.below(21) as f64)).collect();
        let mut matrix = vec![0.0; n * n];
        for i in 0..n {
            for j in 0..n {
                matrix[i * n + j] = match style {
                    // points of a map, in the problem's own unit
                    0..=4 => {
                        let (x, y) = (points[i].0 - points[j].0, points[i].1 - points[j].1);
                        let line = (x * x + y * y).sqrt();
                        domain(if whole { line.round() * unit } else { line * unit })
                    }
                    // symmetric, and no map
                    5 | 6 if j < i => matrix[j * n + i],
                    // every way leads through a hub, and a detour saves or costs no more than rounding
                    7 | 8 => domain(hub[i] + hub[j]),
                    _ => self.number(),
                };
            }
        }
        for i in 0..n {
            matrix[i * n + i] = if own_diagonal { self.number() } else { 0.0 };
        }
        matrix
    }

    // ---- the plan

    /// Routes over the places but the depot, none of them empty.
    pub(super) fn routes(&mut self, kind: Kind, problem: &Problem) -> Routes {
        let mut stops: Vec<usize> = (0..problem.places).filter(|&i| i != problem.vehicle.depot).collect();
        self.random.shuffle(&mut stops);
        if kind == Kind::General {
            match self.random.below(20) {
                0 => stops.clear(),
                1..=3 => stops.truncate(self.random.below(stops.len() + 1)),
                _ => {}
            }
        }
        let n = stops.len();
        if n == 0 {
            return vec![];
        }
        let count = match kind {
            Kind::Capacity => self.random.between(3, 5),
            Kind::Windows => self.random.between(2, 4),
            _ => match self.random.below(10) {
                0 => n,
                1 => 1 + self.random.below(n),
                2 if n <= 40 => 1,
                3 | 4 => 2,
                _ => self.random.between(2, if n > 40 { 15 } else { 6 }),
            },
        };
        // on large problems routes of some ten stops, but for a few
        let count = if n > 40 && self.random.chance(85) { count.max(n / 12) } else { count };
        self.split(stops, count.min(n))
    }

    /// Stops cut into a number of routes, none empty.
    pub(super) fn split(&mut self, stops: Vec<usize>, count: usize) -> Routes {
        let mut cuts: Vec<usize> = (1..stops.len()).collect();
        self.random.shuffle(&mut cuts);
        cuts.truncate(count.saturating_sub(1));
        cuts.push(0);
        cuts.push(stops.len());
        cuts.sort_unstable();
        cuts.windows(2).map(|cut| stops[cut[0]..cut[1]].to_vec()).collect()
    }

    /// The plan that windows and capacity are fitted to: the plan itself, the plan with a route spread over the others,
    /// or the same stops in one route fewer.
    pub(super) fn target(&mut self, routes: &Routes) -> Routes {
        let mut target = routes.clone();
        if routes.len() < 2 || self.random.chance(20) {
            return target;
        }
        if self.random.chance(45) {
            let mut stops = routes.concat();
            self.random.shuffle(&mut stops);
            return self.split(stops, routes.len() - 1);
        }
        let shortest = (0..target.len()).min_by_key(|&k| target[k].len()).unwrap();
        let moving = target.remove(shortest);
        for stop in moving {
            let k = self.random.below(target.len());
            let at = if self.random.chance(40) { 0 } else { self.random.below(target[k].len() + 1) };
            target[k].insert(at, stop);
        }
        for _ in 0..self.random.pick(&[0, 0, 1, 2, 4]) {
            let (a, b) = (self.random.below(target.len()), self.random.below(target.len()));
            let (i, j) = (self.random.below(target[a].len()), self.random.below(target[b].len()));
            let (one, other) = (target[a][i], target[b][j]);
            target[a][i] = other;
            target[b][j] = one;
        }
        target
    }

    /// A plan with empty routes here and there, sometimes up to 256 in all.
    pub(super) fn with_empty(&mut self, mut routes: Routes) -> Routes {
        let most = 256 - routes.len();
        let more = match self.random.below(40) {
            0..=7 => self.random.between(1, 3),
            8 => most,
            _ => 0,
        };
        for _ in 0..more.min(most) {
            let at = self.random.below(routes.len() + 1);
            routes.insert(at, vec![]);
        }
        routes
    }

    // ---- windows, penalties, limits, break, capacity

    pub(super) fn fit(&mut self, kind: Kind, problem: &mut Problem, routes: &Routes, target: &Routes) {
        self.fit_capacity(problem, routes, target);
        if self.random.chance(if kind == Kind::General { 0 } else { 50 }) {
            problem.vehicle.fixed_cost = 1e6;
            problem.vehicle.cost_per_distance = 1.0;
        }
        let percent = self.random.pick(&[30, 60, 100, 100]);
        let tight = Windows::Tight(self.random.pick(&[0, 40, 80, 100, 100]));
        match kind {
            Kind::Capacity => self.fit_tightly(problem, routes),
            Kind::Windows => {
                problem.vehicle.capacity = i32::MAX;
                let windows = if self.random.chance(60) { Windows::Pressed } else { tight };
                self.fit_windows(problem, target, percent.max(60), windows);
                match self.random.below(10) {
                    0 | 1 => self.soften(problem),
                    2 => self.fit_penalties(problem),
                    _ => {}
                }
                self.fit_limits(problem, target, 12);
            }
            Kind::Break => {
                if self.random.chance(80) {
                    problem.vehicle.capacity = i32::MAX;
                }
                problem.vehicle.rest = Some(self.fit_rest(problem, target));
                if self.random.chance(80) {
                    let windows = if self.random.chance(40) { Windows::Pressed } else { tight };
                    self.fit_windows(problem, target, percent, windows);
                }
                match self.random.below(10) {
                    0..=3 => self.soften(problem),
                    4 => self.fit_penalties(problem),
                    _ => {}
                }
                self.fit_limits(problem, target, 15);
            }
            _ => {
                let model = if self.random.chance(60) { target } else { routes };
                self.fit_general(problem, model, percent, tight);
            }
        }
    }

    fn fit_general(&mut self, problem: &mut Problem, routes: &Routes, percent: usize, windows: Windows) {
        let rest = self.random.chance(25);
        let rest_first = rest && self.random.chance(50);
        if rest_first {
            problem.vehicle.rest = Some(self.fit_rest(problem, routes));
        }
        if self.random.chance(60) {
            self.fit_windows(problem, routes, percent, windows);
            if self.random.chance(8) {
                problem.flags[1..].fill(0);
            }
        }
        self.fit_penalties(problem);
        if rest && !rest_first {
            problem.vehicle.rest = Some(self.fit_rest(problem, routes));
        }
        self.fit_limits(problem, routes, 22);
    }

    fn fit_capacity(&mut self, problem: &mut Problem, routes: &Routes, target: &Routes) {
        let load = |route: &Vec<usize>| route.iter().map(|&stop| problem.demand[stop]).sum::<i32>();
        let most = |routes: &Routes| routes.iter().map(load).max().unwrap_or(0);
        let total: i32 = routes.iter().map(load).sum();
        let fewer = routes.len().max(2) as i32 - 1;
        problem.vehicle.capacity = match self.random.below(20) {
            0..=8 => most(target),
            9..=11 => most(routes),
            12..=14 => (total + fewer - 1).div_euclid(fewer),
            15 => most(routes) - 1,
            16 => most(target) + self.random.below(4) as i32,
            17 => self.random.pick(&[i32::MAX, i32::MIN, -1, 0, -3]),
            18 => self.random.below(12) as i32 - 3,
            _ => i32::MAX,
        };
    }

    /// Small demands and one or two large ones, with just capacity for one route fewer.
    fn fit_tightly(&mut self, problem: &mut Problem, routes: &Routes) {
        if self.random.chance(30) {
            return;
        }
        let small = self.random.between(1, 2);
        for demand in &mut problem.demand {
            *demand = (small + self.random.below(2)) as i32;
        }
        for _ in 0..self.random.between(1, 2) {
            let large = self.random.below(problem.places);
            problem.demand[large] = self.random.between(2 * small + 1, 3 * small + 2) as i32;
        }
        let total: i32 = routes.concat().iter().map(|&stop| problem.demand[stop]).sum();
        let fewer = routes.len().max(2) as i32 - 1;
        problem.vehicle.capacity = (total + fewer - 1) / fewer + self.random.pick(&[0, 0, 0, 1]);
    }

    /// Windows for `percent` of the places along the routes, with a break somewhere if there is one.
    fn fit_windows(&mut self, problem: &mut Problem, routes: &Routes, percent: usize, windows: Windows) {
        let mut walks = routes.clone();
        let depot = problem.vehicle.depot;
        let planned = routes.concat();
        walks.push((0..problem.places).filter(|i| *i != depot && !planned.contains(i)).collect());
        if self.random.chance(8) {
            walks.push(vec![depot]);
        }
        for route in walks {
            let mut time = 0.0;
            let mut from = depot;
            let rest_at = self.random.below(route.len() + 1);
            for (index, stop) in route.into_iter().enumerate() {
                let mut arrival = domain(time + problem.travel(from, stop));
                if let Some(rest) = problem.vehicle.rest {
                    let start = arrival.max(rest.earliest);
                    if index == rest_at && start <= rest.latest {
                        arrival = domain(start + rest.duration);
                    }
                }
                if self.random.chance(percent) {
                    let (ready, due) = self.window(arrival, windows);
                    problem.flags[stop] |= WINDOW;
                    problem.ready[stop] = ready;
                    problem.due[stop] = due;
                }
                time = after(problem, arrival, stop);
                from = stop;
            }
        }
    }

    fn window(&mut self, arrival: f64, windows: Windows) -> (f64, f64) {
        let room = self.number() * self.random.pick(&[0.1, 1.0, 1.0, 3.0]);
        // A wait is rounded, and rounded again, where ready is more than twice the arrival.
        let far = domain(arrival * self.random.pick(&[1.7, 2.3, 3.0, 3.7, 7.0]) + room * 0.1);
        let tight = match windows {
            Windows::Tight(tight) => tight,
            Windows::Pressed => {
                return if self.random.chance(50) {
                    (if self.random.chance(70) { 0.0 } else { arrival }, arrival)
                } else {
                    let ready = if self.random.chance(30) { domain(arrival + room) } else { far };
                    (ready, domain(ready + self.number() * self.random.pick(&[0.0, 1.0, 1.0])))
                };
            }
        };
        let ready = match self.random.below(20) {
            0..=4 => 0.0,
            5 | 6 => arrival,
            7 | 8 => self.near(arrival),
            9..=13 => domain(arrival + room),
            14..=16 => far,
            _ => domain(arrival - room),
        };
        let served = if arrival < ready { ready } else { arrival };
        let due = if self.random.chance(tight) {
            match self.random.below(8) {
                0 => self.near(served),
                1 => domain(arrival - room),
                _ => served,
            }
        } else {
            domain(served + self.number() * self.random.pick(&[1.0, 2.0, 6.0]))
        };
        (ready, if due < ready { ready } else { due })
    }

    fn fit_penalties(&mut self, problem: &mut Problem) {
        let style = self.random.below(20);
        let one = self.random.below(problem.places);
        for i in 0..problem.places {
            let window = problem.flags[i] & WINDOW != 0;
            let depot = i == problem.vehicle.depot;
            let given = match style {
                0..=3 => self.random.chance(70),
                4 => true,
                5..=7 => !window,
                8 => i == one,
                9 => depot,
                _ => false,
            };
            if given {
                problem.flags[i] |= PENALTY;
                problem.penalty[i] = match self.random.below(8) {
                    0 => 0.0,
                    1 => 1e12,
                    2..=4 => self.random.below(4) as f64,
                    _ => self.number(),
                };
            }
        }
        // A window at the depot is read by nothing but the bound and the two questions over all places.
        if style == 9 && self.random.chance(50) {
            let depot = problem.vehicle.depot;
            problem.flags[depot] |= WINDOW;
            problem.ready[depot] = 0.0;
            problem.due[depot] = self.number();
        }
    }

    /// A penalty at every place, 0 or with a fraction.
    fn soften(&mut self, problem: &mut Problem) {
        for i in 0..problem.places {
            problem.flags[i] |= PENALTY;
            problem.penalty[i] = if self.random.chance(25) { 0.0 } else { self.random.unit() * 3.0 };
        }
    }

    fn fit_limits(&mut self, problem: &mut Problem, routes: &Routes, percent: usize) {
        if self.random.chance(percent) {
            let some = self.walked(problem, routes).0;
            problem.vehicle.max_distance = Some(self.limit(some));
        }
        if self.random.chance(percent) {
            let mut some = self.walked(problem, routes).1;
            if let Some(rest) = problem.vehicle.rest {
                some = domain(some + rest.duration);
            }
            problem.vehicle.max_duration = Some(self.limit(some));
        }
    }

    fn limit(&mut self, some: f64) -> f64 {
        let number = self.number();
        match self.random.below(6) {
            0 | 1 => some,
            2 => self.near(some),
            3 => domain(some + number),
            4 => domain(some * 2.0 + number),
            _ => number,
        }
    }

    /// The distance and the duration, without a break, of one of the routes, or the largest of them.
    fn walked(&mut self, problem: &Problem, routes: &Routes) -> (f64, f64) {
        let depot = problem.vehicle.depot;
        let mut sums = vec![];
        for route in routes {
            let (mut distance, mut time) = (0.0, 0.0);
            let mut from = depot;
            for &stop in route {
                distance += problem.distance(from, stop);
                time = after(problem, time + problem.travel(from, stop), stop);
                from = stop;
            }
            sums.push((domain(distance + problem.distance(from, depot)), domain(time + problem.travel(from, depot))));
        }
        if sums.is_empty() {
            return (0.0, 0.0);
        }
        if self.random.chance(30) {
            return self.random.pick(&sums);
        }
        sums.into_iter().fold((0.0, 0.0), |most, sum| (sum.0.max(most.0), sum.1.max(most.1)))
    }

    /// A break around the times along one of the routes.
    pub(super) fn fit_rest(&mut self, problem: &Problem, routes: &Routes) -> Break {
        let mut times = vec![0.0];
        if !routes.is_empty() {
            let route = &routes[self.random.below(routes.len())];
            let mut time = 0.0;
            let mut from = problem.vehicle.depot;
            for &stop in route {
                let arrival = time + problem.travel(from, stop);
                times.push(arrival);
                time = after(problem, arrival, stop);
                from = stop;
            }
            times.push(time + problem.travel(from, problem.vehicle.depot));
        }
        let time = domain(self.random.pick(&times));
        let room = self.number();
        let earliest = match self.random.below(6) {
            0 | 1 => time,
            2 => self.near(time),
            3 => domain(time - room),
            4 => domain(time + room),
            _ => 0.0,
        };
        let later = domain(self.random.pick(&times));
        let latest = match self.random.below(8) {
            0 => earliest,
            1 | 2 => later,
            3 => self.near(later),
            4 | 5 => domain(earliest + self.number() * 3.0),
            6 => domain(later + self.number()),
            _ => 1e12,
        };
        let duration = match self.random.below(4) {
            0 => 0.0,
            1 => self.number() * 0.1,
            _ => self.number(),
        };
        Break { earliest, latest, duration }
    }
}
