//! Random calls on a good problem and plan.

use super::{Asked, Kind, Maker, Routes};
use crate::model::Model;
use crate::problem::{Answer, Call, Cells, Plan, Problem, Side};

impl Maker {
    pub(super) fn cells(&mut self) -> Cells {
        let mut cells = Cells { u16s: 8192, f64s: 2048, content: self.random.word() };
        if self.random.chance(40) {
            cells.u16s += self.random.below(300);
            cells.f64s += self.random.below(300);
        }
        cells
    }

    /// A list of minimise and eliminate calls, some of them refused for what they are given themselves.
    pub(super) fn plan_calls(&mut self, kind: Kind, problem: &Problem, plan: &Plan, calls: &mut Vec<Asked>) {
        let mut plan = plan.clone();
        let mut model = Model::default();
        let edge = matches!(kind, Kind::Gain | Kind::Quick);
        for index in 0..self.random.between(1, 4) {
            let eliminate = match kind {
                Kind::Quick if index == 0 => 0,
                Kind::ShortWay if index == 0 => 100,
                _ => 34,
            };
            let mut call = if self.random.chance(eliminate) {
                Call::Eliminate { cells: self.cells() }
            } else {
                self.minimise(problem, &plan, &mut model)
            };
            let mut rows = vec![];
            match &mut call {
                // the edge is there at the first call only
                Call::Minimise { limit, clock, .. } if edge && index == 0 => {
                    *limit = (*limit).max(5);
                    *clock = (*clock).max(40);
                }
                _ if self.random.chance(8) => self.damage_call(&mut call, &mut rows, problem),
                _ => {}
            }
            model.call(problem, &mut plan, &call);
            calls.push(Asked { call, refusal: rows.into_iter().min() });
        }
    }

    pub(super) fn minimise(&mut self, problem: &Problem, plan: &Plan, model: &mut Model) -> Call {
        let large = problem.places > 40;
        let limit = match self.random.below(100) {
            0..=13 if two_short(plan) => 65_535,
            0..=5 => 0,
            6..=13 => 1,
            14..=21 => 2,
            22..=49 => self.random.between(3, 8),
            _ if large => self.random.between(3, 12),
            50..=79 => self.random.between(9, 25),
            80..=91 => self.random.between(26, 70),
            92..=96 => self.random.between(71, 400),
            _ => 65_535,
        };
        let words = match self.random.below(10) {
            0..=1 => 1,
            2..=4 => self.random.between(2, 7),
            5..=7 => self.random.between(8, 100),
            _ => self.random.between(400, 1200),
        };
        let small = self.random.chance(30);
        let tape = (0..words).map(|_| if small { self.random.word() % 10 } else { self.random.word() }).collect();
        let most = if large { 20 } else { 600 };
        let clock = match self.random.below(20) {
            0 => 0,
            1..=3 => self.random.between(1, 12) as u64,
            _ if limit == 65_535 && two_short(plan) => u64::MAX,
            _ if limit > 400 || large => self.random.between(1, most) as u64,
            4..=8 => most as u64,
            _ => u64::MAX,
        };
        let mut call = Call::Minimise { limit, tape, clock, cells: self.cells() };
        if self.random.chance(25) {
            // a clock that stops the call at, just before or just after its last step
            if let Answer::Minimised { steps, .. } = model.call(problem, &mut plan.clone(), &call) {
                if let Call::Minimise { clock, .. } = &mut call {
                    *clock = (steps + self.random.below(3) as u64).saturating_sub(1).min(*clock);
                }
            }
        }
        call
    }

    /// A call other than minimise and eliminate, more often one that says more.
    pub(super) fn route_call(&mut self, problem: &Problem, routes: &Routes, target: &Routes) -> Call {
        let kind = self.random.pick(&[2, 2, 2, 2, 3, 3, 3, 3, 3, 3, 4, 4, 5, 5, 5, 6, 7, 7, 8, 9]);
        self.route_call_of(kind, problem, routes, target)
    }

    /// A call of the kind with this number in `KINDS`.
    pub(super) fn route_call_of(&mut self, kind: usize, problem: &Problem, routes: &Routes, target: &Routes) -> Call {
        let route = self.route(problem, routes, target);
        match kind {
            2 => Call::RouteFeasible { route },
            3 => Call::RouteEval { route },
            4 => Call::EffectiveCost { route },
            5 => {
                let walks = vec![route.iter().map(|&stop| stop as usize).collect()];
                let rest = match problem.vehicle.rest {
                    Some(rest) if self.random.chance(40) => rest,
                    _ => self.fit_rest(problem, &walks),
                };
                Call::Schedule { route, rest }
            }
            6 => Call::RouteDistance { route },
            7 => Call::LatenessBound,
            8 => Call::GainFloor,
            _ => {
                let ready = self.any_float();
                let due = match self.random.below(4) {
                    0 => ready,
                    1 => ready.next_up(),
                    2 => ready.next_down(),
                    _ => self.any_float(),
                };
                Call::TimeWindowNew { ready, due }
            }
        }
    }

    fn route(&mut self, problem: &Problem, routes: &Routes, target: &Routes) -> Vec<u16> {
        let narrow = |route: &Vec<usize>| -> Vec<u16> { route.iter().map(|&stop| stop as u16).collect() };
        match self.random.below(20) {
            0..=4 if !routes.is_empty() => narrow(&routes[self.random.below(routes.len())]),
            5..=12 if !target.is_empty() => narrow(&target[self.random.below(target.len())]),
            13 | 14 => vec![],
            _ => {
                let mut stops: Vec<u16> = (0..problem.places as u16).collect();
                stops.retain(|&stop| stop as usize != problem.vehicle.depot);
                self.random.shuffle(&mut stops);
                stops.truncate(self.random.below(stops.len() + 1));
                stops
            }
        }
    }
}

/// Whether a plan has two routes that are not empty, of three stops at most in all: an attempt's steps are cheap then.
fn two_short(plan: &Plan) -> bool {
    plan.lengths.iter().filter(|&&length| length > 0).count() == 2 && plan.stops.len() <= 3
}
