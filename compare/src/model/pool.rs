//! Minimise: rounds, attempts with the ejection pool, and perturb.

use std::iter::once;

use super::{by_length, trial, without, Routes, Steps};
use crate::events::{Event, Events};

/// What minimise is given beside the plan, and its counts.
pub(super) struct Run<'a> {
    pub(super) limit: usize,
    pub(super) clock: u64,
    pub(super) steps: u64,
    pub(super) tape: &'a [u64],
    pub(super) draws: u64,
}

impl Run<'_> {
    /// The next word of the tape, reduced to a range of m values.
    fn draw(&mut self, m: usize, events: &mut Events) -> usize {
        let at = (self.draws % self.tape.len() as u64) as usize;
        if at == 0 && self.draws > 0 {
            events.add(Event::TapeAgain);
        }
        self.draws += 1;
        (self.tape[at] % m as u64) as usize
    }
}

/// Departures and latest arrivals at a route's stops: what the quick test reads.
struct Times {
    departures: Vec<f64>,
    latest: Vec<f64>,
}

/// The best ejection so far: the route, the indexes that leave it (the second one may be none) and the place for the
/// popped stop in the kept part.
#[derive(Clone, Copy)]
struct Ejection {
    failures: u32,
    cost: f64,
    route: usize,
    first: usize,
    second: Option<usize>,
    at: usize,
}

/// A route without one or two of its stops.
fn kept(route: &[usize], first: usize, second: Option<usize>) -> Vec<usize> {
    let leaves = |i: usize| i == first || Some(i) == second;
    (0..route.len()).filter(|&i| !leaves(i)).map(|i| route[i]).collect()
}

impl Steps<'_> {
    pub(super) fn minimise(&mut self, mut routes: Routes, run: &mut Run) -> Routes {
        if self.soft {
            self.events.add(Event::SoftReturn);
            if routes.iter().any(|route| route.is_empty()) {
                self.events.add(Event::SoftReturnWithEmpty);
            }
            return routes;
        }
        'search: loop {
            self.drop_empty(&mut routes);
            let before = self.cost(&routes);
            for k in by_length(&routes) {
                if routes.len() == 1 {
                    self.events.add(Event::LastRoute);
                }
                let Some(rest) = self.attempt(without(&routes, k), &routes[k], run) else {
                    continue;
                };
                let cost = self.cost(&rest);
                if cost < before - 1e-12 * before.abs() {
                    self.events.add(Event::Accepted);
                    routes = rest;
                    continue 'search;
                }
                self.events.add(if cost < before { Event::WithinTolerance } else { Event::NotCheaper });
            }
            return routes;
        }
    }

    /// Tries to empty a route into the others: the routes with its stops in them, or none.
    fn attempt(&mut self, mut routes: Routes, removed: &[usize], run: &mut Run) -> Option<Routes> {
        let mut failures = vec![1u32; self.problem.places];
        let mut ejected = vec![0u32; self.problem.places];
        let mut pool = removed.to_vec();
        let mut pops = 0;
        while let Some(stop) = pool.pop() {
            if pops == run.limit {
                self.events.add(if pops == 65_535 { Event::LongAttempt } else { Event::StoppedByLimit });
                return None;
            }
            if run.steps == run.clock {
                self.events.add(Event::StoppedByClock);
                return None;
            }
            pops += 1;
            run.steps += 1;
            if let Some((k, at)) = self.cheapest(&routes, stop) {
                self.events.add(if ejected[stop] > 0 { Event::InsertedAfterEjection } else { Event::Inserted });
                routes[k].insert(at, stop);
                continue;
            }
            failures[stop] += 1;
            let Some(found) = self.eject(&routes, stop, &failures) else {
                self.events.add(Event::NoEjection);
                return None;
            };
            let route = &mut routes[found.route];
            let mut into = kept(route, found.first, found.second);
            if into.is_empty() {
                self.events.add(Event::KeptEmpty);
            }
            self.events.add(if found.second.is_some() { Event::Double } else { Event::Single });
            into.insert(found.at, stop);
            for i in once(found.first).chain(found.second) {
                ejected[route[i]] += 1;
                if ejected[route[i]] > 1 {
                    self.events.add(Event::EjectedAgain);
                }
                pool.push(route[i]);
            }
            *route = into;
            self.perturb(&mut routes, run);
        }
        if pops == run.limit {
            self.events.add(Event::EmptiedAtLimit);
        }
        if run.steps == run.clock {
            self.events.add(Event::EmptiedAtClock);
        }
        Some(routes)
    }

    /// When the service of a place ends after an arrival; none where its window is missed. The pool's windows are hard.
    fn served_at(&self, arrival: f64, place: usize) -> Option<f64> {
        let mut start = arrival;
        if let Some((ready, due)) = self.problem.window(place) {
            if arrival > due {
                return None;
            }
            if arrival < ready {
                start = arrival + (ready - arrival);
            }
        }
        Some(start + self.problem.service[place])
    }

    /// What the quick test reads of a route; none where the route's departures miss a window.
    fn times(&mut self, route: &[usize]) -> Option<Times> {
        let mut departures = Vec::with_capacity(route.len());
        let mut time = 0.0;
        let mut from = self.depot;
        for &stop in route {
            time = self.served_at(time + self.problem.travel(from, stop), stop)?;
            departures.push(time);
            from = stop;
        }
        let mut latest = vec![0.0; route.len()];
        let mut next = self.depot;
        let mut bound = f64::INFINITY;
        for (i, &stop) in route.iter().enumerate().rev() {
            let mut arrival = bound - self.problem.travel(stop, next) - self.problem.service[stop];
            if let Some((ready, due)) = self.problem.window(stop) {
                if arrival < ready {
                    arrival = f64::NEG_INFINITY;
                    self.events.add(Event::BoundMinusInfinity);
                } else if due < arrival {
                    arrival = due;
                }
            }
            latest[i] = arrival;
            bound = arrival;
            next = stop;
        }
        Some(Times { departures, latest })
    }

    /// The quick test: the stop's own window, and the next stop reached by its latest arrival.
    fn may_fit(&mut self, route: &[usize], times: &Times, at: usize, stop: usize) -> bool {
        let (time, from) = if at == 0 { (0.0, self.depot) } else { (times.departures[at - 1], route[at - 1]) };
        let Some(end) = self.served_at(time + self.problem.travel(from, stop), stop) else {
            return false;
        };
        if at == route.len() {
            return true;
        }
        let arrival = end + self.problem.travel(stop, route[at]);
        let bound = times.latest[at];
        let within = arrival <= bound + 1e-9 * bound.abs().max(1.0);
        if within && arrival > bound {
            self.events.add(Event::QuickSlack);
        }
        within
    }

    /// The quick test and the check of a route with a stop put in; both only where the check is needed.
    fn allowed(&mut self, route: &[usize], times: &Option<Times>, at: usize, stop: usize, refused: Event) -> bool {
        let Some(times) = times else {
            return true;
        };
        let quick = self.may_fit(route, times, at, stop);
        let passes = self.passes(trial(route, at, stop));
        if passes && !quick {
            self.events.add(refused);
        }
        if quick && !passes {
            self.events.add(Event::CheckRefuses);
        }
        quick && passes
    }

    /// The cheapest route and place for a stop.
    fn cheapest(&mut self, routes: &Routes, stop: usize) -> Option<(usize, usize)> {
        let mut best: Option<(f64, usize, usize)> = None;
        for (k, route) in routes.iter().enumerate() {
            if !self.fits(self.load(route) + self.problem.demand[stop] as i64) {
                continue;
            }
            let times = if self.check_needed { self.times(route) } else { None };
            if self.check_needed && times.is_none() {
                self.events.add(Event::RoutePassedOver);
                continue;
            }
            for at in 0..=route.len() {
                let cost = self.insertion_cost(route, at, stop);
                if let Some((least, ..)) = best {
                    if cost == least {
                        self.events.add(Event::CostTie);
                    }
                    if cost >= least {
                        continue;
                    }
                }
                if self.allowed(route, &times, at, stop, Event::QuickRefuses) {
                    best = Some((cost, k, at));
                }
            }
        }
        best.map(|(_, k, at)| (k, at))
    }

    /// The ejection of one stop, or only if no single one works of two, by least (failure sum, insertion cost).
    fn eject(&mut self, routes: &Routes, stop: usize, failures: &[u32]) -> Option<Ejection> {
        for pairs in [false, true] {
            let mut best = None;
            for (k, route) in routes.iter().enumerate() {
                for first in 0..route.len() {
                    if !pairs {
                        self.eject_from(&mut best, k, route, (first, None), stop, failures);
                    }
                    for second in first + 1..route.len() {
                        if pairs {
                            self.eject_from(&mut best, k, route, (first, Some(second)), stop, failures);
                        }
                    }
                }
            }
            if best.is_some() {
                return best;
            }
        }
        None
    }

    /// The best ejection after every place in what is kept of one route.
    fn eject_from(
        &mut self,
        best: &mut Option<Ejection>,
        k: usize,
        route: &[usize],
        (first, second): (usize, Option<usize>),
        stop: usize,
        failures: &[u32],
    ) {
        let sum = once(first).chain(second).map(|i| failures[route[i]]).sum();
        if best.is_some_and(|b| b.failures < sum) {
            return;
        }
        let kept = kept(route, first, second);
        if !self.fits(self.load(&kept) + self.problem.demand[stop] as i64) {
            return;
        }
        let times = if self.check_needed { self.times(&kept) } else { None };
        if self.check_needed && times.is_none() {
            self.events.add(Event::KeptPassedOver);
            return;
        }
        for at in 0..=kept.len() {
            let cost = self.insertion_cost(&kept, at, stop);
            if let Some(b) = *best {
                if sum == b.failures && cost == b.cost {
                    self.events.add(Event::EjectionTie);
                }
                if sum == b.failures && cost >= b.cost {
                    continue;
                }
            }
            if !self.allowed(&kept, &times, at, stop, Event::QuickRefusesEjection) {
                continue;
            }
            if let Some(b) = *best {
                if sum < b.failures && cost > b.cost {
                    self.events.add(Event::ByFailures);
                }
                if sum == b.failures {
                    self.events.add(Event::ByCost);
                }
            }
            *best = Some(Ejection { failures: sum, cost, route: k, first, second, at });
        }
    }

    /// One hundred random moves, each of five draws: an exchange of two stops, or of two tails.
    fn perturb(&mut self, routes: &mut Routes, run: &mut Run) {
        let n = routes.len();
        if n < 2 {
            self.events.add(Event::Alone);
            return;
        }
        for _ in 0..100 {
            let a = run.draw(n, self.events);
            let other = run.draw(n - 1, self.events);
            let b = if other < a { other } else { other + 1 };
            let exchange = run.draw(2, self.events) == 0;
            let past = if exchange { 0 } else { 1 };
            let i = run.draw(routes[a].len() + past, self.events);
            let j = run.draw(routes[b].len() + past, self.events);
            let mut left = routes[a].clone();
            let mut right = routes[b].clone();
            if exchange {
                left[i] = routes[b][j];
                right[j] = routes[a][i];
            } else {
                left.truncate(i);
                left.extend(&routes[b][j..]);
                right.truncate(j);
                right.extend(&routes[a][i..]);
                if left.is_empty() || right.is_empty() {
                    self.events.add(Event::TailSwapEmpties);
                    continue;
                }
                if i == 0 && j == 0 {
                    self.events.add(Event::TailSwapWhole);
                }
                if i == routes[a].len() && j == routes[b].len() {
                    self.events.add(Event::TailSwapNothing);
                }
            }
            let first = self.fits_and_passes(&left);
            let stands = first && self.fits_and_passes(&right);
            if first && !stands {
                self.events.add(Event::OnlyFirstPasses);
            }
            self.events.add(match (exchange, stands) {
                (true, true) => Event::Exchange,
                (true, false) => Event::ExchangeRefused,
                (false, true) => Event::TailSwap,
                (false, false) => Event::TailSwapRefused,
            });
            if stands {
                routes[a] = left;
                routes[b] = right;
            }
        }
    }
}
