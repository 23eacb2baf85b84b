//! The side of the port. What it is not to read and what it is to write over is filled with random bits, work cells
//! included; a call that it refuses must leave every slice as it was. Some calls are first made with a slice of a wrong
//! length, or with a `given` that has no meaning, which the port must refuse before all else.

use crate::listed::replies;
use crate::port::{self, Lent, Numbers, BREAK, MAX_DISTANCE, MAX_DURATION};
use crate::problem::{Answer, Call, Cells, Eval, Plan, Problem, Side};
use crate::random::Random;

/// The port, with the random words for what a call may not depend on.
pub struct Port {
    random: Random,
}

/// The slices that a call writes into besides the plan: for its answer, and work cells.
#[derive(Clone)]
struct Slices {
    out: Vec<f64>,
    found: Vec<u64>,
    work: Vec<u16>,
    cells: Vec<f64>,
}

impl Slices {
    /// Equal bits are equal slices.
    fn bits(&self) -> (Vec<u64>, &Vec<u64>, &Vec<u16>, Vec<u64>) {
        let of = |floats: &Vec<f64>| floats.iter().map(|value| value.to_bits()).collect();
        (of(&self.out), &self.found, &self.work, of(&self.cells))
    }
}

impl Default for Port {
    fn default() -> Self {
        Port { random: Random::new(1) }
    }
}

impl Side for Port {
    fn name(&self) -> &'static str {
        "port"
    }

    fn call(&mut self, problem: &Problem, plan: &mut Plan, call: &Call) -> Answer {
        let numbers = self.numbers(problem);
        let mut slices = self.slices(call);
        if self.random.chance(10) {
            self.misfits(problem, plan, call, &numbers, &slices);
        }
        let (given, before) = (plan.clone(), slices.clone());
        let number = ask(problem, plan, call, &numbers, &mut slices);
        if number == 0 {
            return answer(call, &slices);
        }
        assert!(slices.bits() == before.bits() && *plan == given, "a refused call wrote something");
        Answer::Refused(number)
    }

    fn list(&mut self, problem: &Problem, plan: &mut Plan, calls: &[&Call]) -> Option<Vec<(Answer, Plan)>> {
        let numbers = self.numbers(problem);
        Some(replies(problem, plan, calls, &numbers, &mut self.random))
    }
}

impl Port {
    /// The vehicle's numbers; those that are not there are any float.
    fn numbers(&mut self, problem: &Problem) -> Numbers {
        let v = &problem.vehicle;
        let bit = |there: bool, bit: u8| if there { bit } else { 0 };
        let given = bit(v.max_distance.is_some(), MAX_DISTANCE)
            | bit(v.max_duration.is_some(), MAX_DURATION)
            | bit(v.rest.is_some(), BREAK);
        Numbers {
            capacity: v.capacity,
            depot: v.depot,
            fixed_cost: v.fixed_cost,
            cost_per_distance: v.cost_per_distance,
            given,
            max_distance: v.max_distance.unwrap_or_else(|| self.float()),
            max_duration: v.max_duration.unwrap_or_else(|| self.float()),
            earliest: v.rest.map_or_else(|| self.float(), |rest| rest.earliest),
            latest: v.rest.map_or_else(|| self.float(), |rest| rest.latest),
            duration: v.rest.map_or_else(|| self.float(), |rest| rest.duration),
        }
    }

    fn float(&mut self) -> f64 {
        f64::from_bits(self.random.word())
    }

    /// The slices of a call, with random content.
    fn slices(&mut self, call: &Call) -> Slices {
        let (floats, words) = widths(call);
        let none = Cells { u16s: 0, f64s: 0, content: 0 };
        let work = match call {
            Call::Minimise { cells, .. } | Call::Eliminate { cells } => cells,
            _ => &none,
        };
        let mut random = Random::new(work.content);
        Slices {
            out: (0..floats).map(|_| self.float()).collect(),
            found: (0..words).map(|_| self.random.word()).collect(),
            work: (0..work.u16s).map(|_| random.word() as u16).collect(),
            cells: (0..work.f64s).map(|_| f64::from_bits(random.word())).collect(),
        }
    }

    /// The call with a slice for its answer that is longer or shorter, then with a `given` over 7: refused with 100 and
    /// 101, and nothing is written.
    fn misfits(&mut self, problem: &Problem, plan: &Plan, call: &Call, numbers: &Numbers, slices: &Slices) {
        let mut wrong = slices.clone();
        let longer = self.random.chance(50);
        if wrong.found.is_empty() || !wrong.out.is_empty() && self.random.chance(50) {
            resized(&mut wrong.out, longer);
        } else {
            resized(&mut wrong.found, longer);
        }
        let over = Numbers { given: numbers.given | 8 << self.random.below(5), ..*numbers };
        let any_given = if self.random.chance(50) { numbers } else { &over };
        refused_with(100, problem, plan, call, any_given, &wrong);
        if !matches!(call, Call::TimeWindowNew { .. }) {
            refused_with(101, problem, plan, call, &over, slices);
        }
    }
}

/// A call with all that it takes in the port's own form.
pub struct Ready<'a> {
    call: &'a Call,
    problem: &'a Problem,
    numbers: Numbers,
    slices: Slices,
    /// The plan, and after `make` the one that the call leaves.
    pub plan: Plan,
}

impl<'a> Ready<'a> {
    pub fn new(problem: &'a Problem, plan: &Plan, call: &'a Call) -> Self {
        let mut port = Port::default();
        Ready { call, problem, numbers: port.numbers(problem), slices: port.slices(call), plan: plan.clone() }
    }

    /// Makes the call: the number that the port returns.
    pub fn make(&mut self) -> u8 {
        ask(self.problem, &mut self.plan, self.call, &self.numbers, &mut self.slices)
    }

    /// The answer of a call that was made and not refused.
    pub fn answer(&self) -> Answer {
        answer(self.call, &self.slices)
    }
}

/// One cell more or less.
fn resized<T: Default>(cells: &mut Vec<T>, longer: bool) {
    if longer {
        cells.push(T::default());
    } else {
        cells.pop();
    }
}

fn refused_with(number: u8, problem: &Problem, plan: &Plan, call: &Call, numbers: &Numbers, slices: &Slices) {
    let (mut left, mut after) = (plan.clone(), slices.clone());
    let said = ask(problem, &mut left, call, numbers, &mut after);
    assert!(said == number && after.bits() == slices.bits() && left == *plan, "{number} expected, {said} returned");
}

/// How many floats and words a call's answer has.
fn widths(call: &Call) -> (usize, usize) {
    match call {
        Call::Minimise { .. } | Call::Eliminate { .. } => (0, 3),
        Call::RouteFeasible { .. } => (0, 1),
        Call::RouteEval { .. } | Call::Schedule { .. } => (5, 3),
        Call::EffectiveCost { .. } | Call::RouteDistance { .. } | Call::LatenessBound | Call::GainFloor => (1, 0),
        Call::TimeWindowNew { .. } => (2, 1),
    }
}

/// Makes the call: the number that the port returns.
fn ask(p: &Problem, plan: &mut Plan, call: &Call, v: &Numbers, slices: &mut Slices) -> u8 {
    let Slices { out, found, work, cells } = slices;
    let Plan { lengths, stops } = plan;
    match call {
        Call::Minimise { limit, tape, clock, .. } => {
            port::minimise(Lent { lengths, stops, work, cells, counts: found }, tape, *limit as u64, *clock, p, v)
        }
        Call::Eliminate { .. } => port::eliminate(Lent { lengths, stops, work, cells, counts: found }, p, v),
        Call::RouteFeasible { route } => port::route_feasible(found, route, p, v),
        Call::RouteEval { route } => port::route_eval(out, found, route, p, v),
        Call::EffectiveCost { route } => port::effective_cost(out, route, p, v),
        Call::Schedule { route, rest } => {
            port::schedule(out, found, route, [rest.earliest, rest.latest, rest.duration], p, v)
        }
        Call::RouteDistance { route } => port::route_distance(out, route, p, v),
        Call::LatenessBound => port::lateness_bound(out, p, v),
        Call::GainFloor => port::gain_floor(out, p, v),
        Call::TimeWindowNew { ready, due } => port::time_window_new(out, found, *ready, *due),
    }
}

/// The answer in the slices of a call that is not refused. What there is not must be 0.
fn answer(call: &Call, slices: &Slices) -> Answer {
    let (out, found) = (&slices.out[..], &slices.found[..]);
    match call {
        Call::Minimise { .. } => Answer::Minimised { routes: found[0], steps: found[1], draws: found[2] },
        Call::Eliminate { .. } => {
            assert!(found[1..] == [0, 0], "eliminate counts nothing");
            Answer::Eliminated { routes: found[0] }
        }
        Call::RouteFeasible { .. } => Answer::Feasible(yes(found[0])),
        Call::RouteEval { .. } | Call::Schedule { .. } => Answer::Route(evaluation(out, found)),
        Call::EffectiveCost { .. } | Call::RouteDistance { .. } | Call::LatenessBound | Call::GainFloor => {
            Answer::Value(out[0])
        }
        Call::TimeWindowNew { .. } => {
            let made = yes(found[0]);
            assert!(made || zeros(out), "the ends of no window");
            Answer::Window(made.then(|| (out[0], out[1])))
        }
    }
}

fn yes(word: u64) -> bool {
    assert!(word < 2, "neither yes nor no");
    word == 1
}

fn zeros(floats: &[f64]) -> bool {
    floats.iter().all(|value| value.to_bits() == 0)
}

fn evaluation(out: &[f64], found: &[u64]) -> Option<Eval> {
    if !yes(found[0]) {
        assert!(zeros(out) && found[1..] == [0, 0], "values of no route");
        return None;
    }
    let rest = yes(found[1]).then(|| (found[2] as usize, out[4]));
    assert!(rest.is_some() || found[2] == 0 && zeros(&out[4..]), "a break that is not taken");
    Some(Eval { distance: out[0], duration: out[1], lateness: out[2], lateness_cost: out[3], rest })
}
