//! One stop, one route, the break, the bound and the gain floor.

use super::Steps;
use crate::events::Event;
use crate::problem::{Break, Eval};

/// The vehicle at a stop, its service done.
#[derive(Clone, Copy)]
struct Label {
    time: f64,
    lateness: f64,
    cost: f64,
    rest: Option<(usize, f64)>,
}

const START: Label = Label { time: 0.0, lateness: 0.0, cost: 0.0, rest: None };

impl Steps<'_> {
    /// Service at a place reached at `arrival`, after what `label` holds; none where a hard window is missed.
    fn serve(&mut self, label: Label, arrival: f64, place: usize) -> Option<Label> {
        let mut next = label;
        let mut start = arrival;
        if let Some((ready, due)) = self.problem.window(place) {
            let late = (arrival - due).max(0.0);
            if arrival == due {
                self.events.add(Event::WindowExact);
            }
            if let Some(penalty) = self.problem.penalty(place) {
                next.lateness += late;
                next.cost += penalty * late;
                if late > 0.0 {
                    self.events.add(Event::Late);
                }
            } else if arrival > due {
                self.events.add(Event::WindowMissed);
                return None;
            }
            if arrival < ready {
                start = arrival + (ready - arrival);
                self.events.add(Event::Waited);
                if start < ready {
                    self.events.add(Event::StartBelowReady);
                }
                if start > ready {
                    self.events.add(Event::StartAboveReady);
                }
            }
        }
        next.time = start + self.problem.service[place];
        Some(next)
    }

    /// The walk along a route, with its break if there is one; limits are not applied.
    pub(super) fn walk(&mut self, stops: impl Iterator<Item = usize>, rest: Option<Break>) -> Option<Eval> {
        let mut distance = 0.0;
        let mut from = self.depot;
        let mut before = Some(START);
        let mut after = None;
        for (index, stop) in stops.enumerate() {
            distance += self.problem.distance(from, stop);
            let travel = self.problem.travel(from, stop);
            from = stop;
            let skipped = before.and_then(|label: Label| self.serve(label, label.time + travel, stop));
            if let Some(rest) = rest {
                let here = before.and_then(|label| self.rest_here(label, travel, stop, index, rest));
                let carried = after.and_then(|label: Label| self.serve(label, label.time + travel, stop));
                after = self.earlier(carried, here);
                if skipped.is_none() {
                    self.events.add(if after.is_some() { Event::BeforeDead } else { Event::BothDead });
                }
            }
            before = skipped;
            if before.is_none() && after.is_none() {
                return None;
            }
        }
        distance += self.problem.distance(from, self.depot);
        let back = self.problem.travel(from, self.depot);
        let label = match rest {
            None => before?,
            Some(rest) => self.at_home(before, after, back, rest)?,
        };
        Some(Eval {
            distance,
            duration: label.time + back,
            lateness: label.lateness,
            lateness_cost: label.cost,
            rest: label.rest,
        })
    }

    /// The label before the break, with the break taken on arrival at a stop.
    fn rest_here(&mut self, label: Label, travel: f64, stop: usize, index: usize, rest: Break) -> Option<Label> {
        let start = (label.time + travel).max(rest.earliest);
        if start > rest.latest {
            self.events.add(Event::BreakPastLatest);
            return None;
        }
        if start == rest.latest {
            self.events.add(Event::BreakAtLatest);
        }
        self.serve(Label { rest: Some((index, start)), ..label }, start + rest.duration, stop)
    }

    /// The earlier of the two labels after the break by (time, lateness cost), ties to the one carried on.
    fn earlier(&mut self, carried: Option<Label>, here: Option<Label>) -> Option<Label> {
        let (Some(a), Some(b)) = (carried, here) else {
            return carried.or(here);
        };
        if a.time == b.time {
            self.events.add(if a.cost == b.cost { Event::BreakTie } else { Event::BreakByCost });
        }
        let here_first = b.time < a.time || b.time == a.time && b.cost < a.cost;
        Some(if here_first { b } else { a })
    }

    /// The label that counts at the end: before the break if home by earliest, otherwise after it.
    fn at_home(&mut self, before: Option<Label>, after: Option<Label>, back: f64, rest: Break) -> Option<Label> {
        if let Some(label) = before {
            if label.time + back <= rest.earliest {
                self.events.add(Event::BreakNotNeeded);
                if label.time + back == rest.earliest {
                    self.events.add(Event::HomeExactly);
                }
                return before;
            }
        }
        match after.and_then(|label| label.rest) {
            None => self.events.add(Event::BreakImpossible),
            Some((index, _)) => {
                self.events.add(Event::BreakTaken);
                if index > 0 {
                    self.events.add(Event::BreakTakenLater);
                }
            }
        }
        after
    }

    /// Whether a value keeps a limit, with the event where it meets it exactly or is over it.
    fn keeps(&mut self, value: f64, limit: Option<f64>, exact: Event, over: Event) -> bool {
        let Some(most) = limit else { return true };
        if value == most {
            self.events.add(exact);
        } else if value > most {
            self.events.add(over);
        }
        value <= most
    }

    pub(super) fn route_eval(&mut self, stops: impl Iterator<Item = usize>) -> Option<Eval> {
        let vehicle = &self.problem.vehicle;
        let eval = self.walk(stops, vehicle.rest)?;
        let near = self.keeps(eval.distance, vehicle.max_distance, Event::DistanceExact, Event::DistanceOver);
        let soon = self.keeps(eval.duration, vehicle.max_duration, Event::DurationExact, Event::DurationOver);
        (near && soon).then_some(eval)
    }

    /// The route check.
    pub(super) fn passes(&mut self, stops: impl Iterator<Item = usize>) -> bool {
        self.route_eval(stops).is_some()
    }

    pub(super) fn effective_cost(&mut self, stops: impl Iterator<Item = usize>) -> f64 {
        match self.route_eval(stops) {
            Some(eval) => eval.distance + eval.lateness_cost,
            None => f64::INFINITY,
        }
    }

    pub(super) fn route_distance(&self, route: &[usize]) -> f64 {
        let Some(&last) = route.last() else {
            return 0.0;
        };
        let mut sum = 0.0;
        let mut from = self.depot;
        for &stop in route {
            sum += self.problem.distance(from, stop);
            from = stop;
        }
        sum + self.problem.distance(last, self.depot)
    }

    fn largest(values: impl Iterator<Item = f64>) -> f64 {
        values.fold(0.0, |most, value| if value > most { value } else { most })
    }

    pub(super) fn lateness_bound(&mut self) -> f64 {
        if !self.soft {
            self.events.add(Event::BoundZero);
            return 0.0;
        }
        self.events.add(Event::Bound);
        let p = self.problem;
        let n = p.places;
        let travel = if p.times.is_empty() { &p.distances } else { &p.times };
        let slowest = Self::largest(travel.iter().copied());
        let service = Self::largest(p.service.iter().copied());
        let due = Self::largest((0..n).filter_map(|i| p.window(i)).map(|window| window.1));
        let penalty = Self::largest((0..n).filter_map(|i| p.penalty(i)));
        n as f64 * penalty * (due + n as f64 * (slowest + service))
    }

    pub(super) fn gain_floor(&self) -> f64 {
        1e-12 * Self::largest(self.problem.distances.iter().copied())
    }
}
