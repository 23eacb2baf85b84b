//! Damaged inputs, for every row of the table and for several at once, with the refusal that each call must get.

use super::numbers::domain;
use super::{Asked, Maker, Routes};
use crate::problem::{Break, Call, Cells, Plan, Problem, PENALTY, ROWS, WINDOW};

impl Maker {
    /// Damages a good problem and plan by one or more rows of the table, and asks calls of every kind.
    pub(super) fn damaged(&mut self, problem: &mut Problem, plan: &mut Plan, target: &Routes, calls: &mut Vec<Asked>) {
        let mut rows: Vec<u8> = (1..=6).collect();
        self.random.shuffle(&mut rows);
        rows.truncate(self.random.pick(&[0, 1, 1, 1, 2, 3]));
        let good = problem.clone();
        // the last damage is the lowest row's, so that none is undone
        rows.sort_unstable_by(|a, b| b.cmp(a));
        let mut of_problem = vec![];
        let mut of_plan = vec![];
        for row in rows {
            match row {
                5 => self.damage_lengths(plan),
                6 => self.damage_plan_stops(plan, problem),
                _ => self.damage_problem(problem, row),
            }
            if row <= 4 {
                of_problem.push(row);
            } else {
                of_plan.push(row);
            }
        }
        for _ in 0..self.random.between(3, 7) {
            let mut call = match self.random.below(14) {
                0..=3 => {
                    let tape = vec![self.random.word(); self.random.between(1, 3)];
                    Call::Minimise { limit: self.random.below(6), tape, clock: 20, cells: self.cells() }
                }
                4 | 5 => Call::Eliminate { cells: self.cells() },
                kind => self.route_call_of(kind - 4, &good, target, target),
            };
            let mut rows = of_problem.clone();
            if call.has_plan() {
                rows.extend(&of_plan);
            }
            if self.random.chance(55) {
                self.damage_call(&mut call, &mut rows, &good);
            }
            rows.retain(|row| ROWS[call.kind()].contains(row));
            calls.push(Asked { call, refusal: rows.into_iter().min() });
        }
    }

    fn bad_float(&mut self) -> f64 {
        self.random.pick(&[
            f64::NAN,
            -f64::NAN,
            f64::INFINITY,
            f64::NEG_INFINITY,
            -0.0,
            -1.0,
            -5e-324,
            1e12f64.next_up(),
            1e13,
            f64::MAX,
        ])
    }

    fn damage_problem(&mut self, p: &mut Problem, row: u8) {
        let n = p.places;
        let i = self.random.below(n);
        match row {
            1 => self.damage_sizes(p),
            2 => self.damage_numbers(p, i),
            3 => {
                p.flags[i] |= WINDOW;
                p.due[i] = domain(self.number() * 0.5);
                p.ready[i] = if self.random.chance(50) { p.due[i].next_up() } else { p.due[i] + 1.0 };
            }
            _ => p.vehicle.depot = self.random.pick(&[n, n + 1, 65_536, usize::MAX]),
        }
    }

    /// Row 1.
    fn damage_sizes(&mut self, p: &mut Problem) {
        let n = p.places;
        let longer = self.random.chance(50);
        match self.random.below(13) {
            0 => p.places = 0,
            1 => {
                let vehicle = p.vehicle.clone();
                *p = Problem {
                    places: 0,
                    demand: vec![],
                    service: vec![],
                    ready: vec![],
                    due: vec![],
                    penalty: vec![],
                    flags: vec![],
                    distances: vec![],
                    times: vec![],
                    vehicle,
                };
            }
            2 => p.places = self.random.pick(&[257, 65_536, 1 << 32, usize::MAX]),
            3 => {
                p.places = 257;
                p.demand.resize(257, 0);
                for floats in [&mut p.service, &mut p.ready, &mut p.due, &mut p.penalty] {
                    floats.resize(257, 0.0);
                }
                p.flags.resize(257, 0);
                p.distances.resize(257 * 257, 0.0);
                p.times.clear();
            }
            4 => p.demand.resize(if longer { n + 1 } else { n - 1 }, 0),
            5 => p.service.resize(if longer { n + 1 } else { n - 1 }, 0.0),
            6 => p.ready.resize(if longer { n + 1 } else { n - 1 }, 0.0),
            7 => p.due.resize(if longer { n + 1 } else { n - 1 }, 0.0),
            8 => p.penalty.resize(if longer { n + 1 } else { n - 1 }, 0.0),
            9 => p.flags.resize(if longer { n + 1 } else { n - 1 }, 0),
            10 => p.distances.resize(if longer { n * n + 1 } else { n * n - 1 }, 0.0),
            11 => p.distances.clear(),
            _ => p.times.resize(if longer || n == 1 { n * n + 1 } else { n * n - 1 }, 0.0),
        }
    }

    /// Row 2.
    fn damage_numbers(&mut self, p: &mut Problem, i: usize) {
        let bad = self.bad_float();
        let cell = self.random.below(p.distances.len());
        let v = &mut p.vehicle;
        match self.random.below(16) {
            0 => p.service[i] = bad,
            1 => {
                p.flags[i] |= WINDOW;
                p.ready[i] = bad;
                p.due[i] = domain(p.due[i]);
            }
            2 => {
                p.flags[i] |= WINDOW;
                p.due[i] = bad;
                p.ready[i] = domain(p.ready[i]);
            }
            3 => {
                p.flags[i] |= PENALTY;
                p.penalty[i] = bad;
            }
            4 => p.distances[cell] = bad,
            5 => {
                p.times.resize(p.places * p.places, 1.0);
                p.times[cell] = bad;
            }
            6 => v.fixed_cost = bad,
            7 => v.cost_per_distance = bad,
            8 => v.cost_per_distance = self.random.pick(&[1e-6f64.next_down(), 5e-324, 1e-9]),
            9 => v.max_distance = Some(bad),
            10 => v.max_duration = Some(bad),
            11 => {
                let mut rest = Break { earliest: 0.0, latest: 9.0, duration: 1.0 };
                match self.random.below(3) {
                    0 => rest.earliest = bad,
                    1 => rest.latest = bad,
                    _ => rest.duration = bad,
                }
                v.rest = Some(rest);
            }
            12 | 13 => p.demand[i] = self.random.pick(&[1_000_001, -1_000_001, i32::MAX, i32::MIN]),
            _ => p.flags[i] = self.random.pick(&[4, 5, 8, 128, 255]),
        }
    }

    /// Row 5 of a plan.
    fn damage_lengths(&mut self, plan: &mut Plan) {
        let some = plan.lengths.iter().position(|&length| length > 0);
        match (self.random.below(6), some) {
            (0, _) => plan.lengths.resize(257, 0),
            (1, _) => plan.lengths.push(1),
            (2, _) => plan.lengths.extend([65_535, 1]),
            (3, Some(k)) => plan.lengths[k] -= 1,
            (4, Some(_)) => plan.lengths.clear(),
            _ => plan.stops.push(0),
        }
    }

    /// Row 6 of a plan: a bad stop in place of one, or beside them.
    fn damage_plan_stops(&mut self, plan: &mut Plan, problem: &Problem) {
        if plan.stops.is_empty() {
            if plan.lengths.is_empty() {
                plan.lengths.push(0);
            }
            plan.lengths[0] = 1;
            plan.stops.push(problem.vehicle.depot as u16);
        }
        let mut stops = std::mem::take(&mut plan.stops);
        self.damage_stops(&mut stops, problem);
        plan.stops = stops;
    }

    fn damage_stops(&mut self, stops: &mut [u16], problem: &Problem) {
        let i = self.random.below(stops.len());
        stops[i] = match self.random.below(4) {
            0 => problem.places as u16,
            1 => self.random.pick(&[65_535, 257, problem.places as u16 + 1]),
            2 if stops.len() > 1 => stops[if i == 0 { 1 } else { i - 1 }],
            _ => problem.vehicle.depot as u16,
        };
    }

    /// Rows that a call brings with it; `problem` is the good one.
    pub(super) fn damage_call(&mut self, call: &mut Call, rows: &mut Vec<u8>, problem: &Problem) {
        match call {
            Call::Minimise { limit, tape, cells, .. } => {
                let mut some = [7, 8, 9];
                self.random.shuffle(&mut some);
                for &row in &some[..self.random.pick(&[1, 1, 2, 3])] {
                    match row {
                        7 => tape.clear(),
                        8 => *limit = self.random.pick(&[65_536, 65_537, 1 << 32, usize::MAX]),
                        _ => self.damage_cells(cells),
                    }
                    rows.push(row);
                }
            }
            Call::Eliminate { cells } => {
                self.damage_cells(cells);
                rows.push(9);
            }
            Call::Schedule { rest, .. } if self.random.chance(50) => {
                let bad = self.bad_float();
                match self.random.below(3) {
                    0 => rest.earliest = bad,
                    1 => rest.latest = bad,
                    _ => rest.duration = bad,
                }
                rows.push(2);
            }
            Call::RouteFeasible { route }
            | Call::RouteEval { route }
            | Call::EffectiveCost { route }
            | Call::Schedule { route, .. }
            | Call::RouteDistance { route } => {
                if route.is_empty() {
                    route.push(problem.vehicle.depot as u16);
                }
                self.damage_stops(route, problem);
                rows.push(6);
            }
            Call::LatenessBound | Call::GainFloor | Call::TimeWindowNew { .. } => {}
        }
    }

    fn damage_cells(&mut self, cells: &mut Cells) {
        match self.random.below(4) {
            0 => cells.u16s = 8_191,
            1 => cells.f64s = 2_047,
            2 => cells.u16s = self.random.below(8_192),
            _ => cells.f64s = self.random.below(2_048),
        }
    }
}
