//! Eliminate.

use super::{by_length, trial, without, Routes, Steps};
use crate::events::Event;

impl Steps<'_> {
    pub(super) fn eliminate(&mut self, mut routes: Routes) -> Routes {
        'search: loop {
            self.drop_empty(&mut routes);
            for k in by_length(&routes) {
                let saved = self.worth(&routes[k]) + self.fixed;
                if !saved.is_finite() {
                    self.events.add(Event::WorthInfinite);
                    continue;
                }
                let mut rest = without(&routes, k);
                let Some(added) = self.place_all(&mut rest, &routes[k], saved) else {
                    continue;
                };
                if added < saved - self.gain_floor() {
                    self.events.add(if self.soft { Event::EliminatedSoft } else { Event::EliminatedHard });
                    routes = rest;
                    continue 'search;
                }
                self.events.add(Event::GainFloor);
            }
            return routes;
        }
    }

    /// What a route is worth: its distance, or with a soft window its effective cost.
    fn worth(&mut self, route: &[usize]) -> f64 {
        if self.soft {
            self.effective_cost(route.iter().copied())
        } else {
            self.route_distance(route)
        }
    }

    /// Places a route's stops by demand descending, equal demands in route order; what they add, or none.
    fn place_all(&mut self, rest: &mut Routes, removed: &[usize], saved: f64) -> Option<f64> {
        let demand = &self.problem.demand;
        let mut moving: Vec<usize> = (0..removed.len()).collect();
        moving.sort_unstable_by_key(|&i| (-(demand[removed[i]] as i64), i));
        if (1..moving.len()).any(|i| demand[removed[moving[i - 1]]] == demand[removed[moving[i]]]) {
            self.events.add(Event::DemandTie);
        }
        let mut added = 0.0;
        for i in moving {
            let stop = removed[i];
            let (cost, k, at) = self.pick(rest, stop, added, saved)?;
            if self.check_needed && !self.passes(rest[k].iter().copied()) {
                self.events.add(Event::IntoInfeasible);
            }
            rest[k].insert(at, stop);
            added += cost;
        }
        Some(added)
    }

    /// The cheapest place for a stop whose route then passes the check, up to the cut.
    fn pick(&mut self, rest: &Routes, stop: usize, added: f64, saved: f64) -> Option<(f64, usize, usize)> {
        let costs = self.costs(rest, stop);
        let mut last: Option<(f64, usize, usize)> = None;
        loop {
            let mut next: Option<(f64, usize, usize)> = None;
            for &(cost, k, at) in &costs {
                let after = last.is_none_or(|(c, lk, lat)| c < cost || c == cost && (lk, lat) < (k, at));
                if after && next.is_none_or(|(c, ..)| cost < c) {
                    next = Some((cost, k, at));
                }
            }
            let Some((cost, k, at)) = next else {
                self.events.add(Event::NoPlace);
                return None;
            };
            if added + cost >= saved {
                self.events.add(Event::Cut);
                return None;
            }
            if !self.check_needed || self.passes(trial(&rest[k], at, stop)) {
                if costs.iter().any(|&(c, ok, oat)| c == cost && (k, at) < (ok, oat)) {
                    self.events.add(Event::CandidateTie);
                }
                return next;
            }
            self.events.add(Event::CandidateRefused);
            last = next;
        }
    }

    /// The cost of a stop at every place of the routes that it fits into, in plan order.
    fn costs(&mut self, rest: &Routes, stop: usize) -> Vec<(f64, usize, usize)> {
        let mut costs = Vec::new();
        for (k, route) in rest.iter().enumerate() {
            if !self.fits(self.load(route) + self.problem.demand[stop] as i64) {
                continue;
            }
            let now = if self.soft { self.worth(route) } else { 0.0 };
            for at in 0..=route.len() {
                let cost = if self.soft {
                    self.effective_cost(trial(route, at, stop)) - now
                } else {
                    self.insertion_cost(route, at, stop)
                };
                if cost.is_finite() {
                    costs.push((cost, k, at));
                } else if cost.is_nan() {
                    self.events.add(Event::CostNan);
                } else if cost > 0.0 {
                    self.events.add(Event::CostPlusInfinity);
                } else {
                    self.events.add(Event::CostMinusInfinity);
                }
            }
        }
        costs
    }
}
