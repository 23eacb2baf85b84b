//! Stored answers of the original for the program `replay` (crates/replay), as numbers in decimal: the form is said in the head comments of its
//! src/cases.rt and of crate replayed_calls.

use crate::answers::longest;
use crate::cases;
use crate::generate::{case, case_seed, Case};
use crate::problem::{Answer, Break, Call, Plan, Problem, Side, KINDS, ROWS};

/// The room that the program has for a record slice, a matrix, a plan's slice, a route, the tape and the work cells.
const RECORDS: usize = 16;
const MATRIX: usize = 160;
const PLAN: usize = 264;
const ROUTE: usize = 32;
const TAPE: usize = 64;
const U16_CELLS: usize = 8704;
const F64_CELLS: usize = 2560;

/// The tapes of stored calls are cut to this length, which is enough for every draw of a move to be another word.
const WORDS: usize = 24;

/// Prints the twelve cases, the first `count` cases of a seed that fit, and further ones until every kind of call is refused by every row that it has
/// input for. A case fits if it has at most `most` places and its calls take at most `steps` steps.
pub fn print(side: &mut dyn Side, count: u64, seed: u64, most: usize, steps: u64) {
    let mut seen = [[false; 10]; KINDS.len()];
    let mut stored = cases::listed();
    let mut taken = 0;
    let mut index = 0;
    while taken < count || !all_rows(&seen) {
        let mut case = case(case_seed(seed, index), most);
        index += 1;
        cut_tapes(&mut case);
        if !fits(&case) || longest(side, &case) > steps {
            continue;
        }
        let news = note_rows(side, &case, &mut seen);
        if taken < count {
            taken += 1;
        } else if !news {
            continue;
        }
        let calls = case.calls.into_iter().map(|asked| asked.call).collect();
        stored.push((case.problem, case.plan, calls));
    }
    println!("{}", stored.len());
    for (problem, plan, calls) in stored {
        print_case(side, &problem, plan, &calls);
    }
}

fn all_rows(seen: &[[bool; 10]; KINDS.len()]) -> bool {
    ROWS.iter().zip(seen).all(|(rows, seen)| rows.iter().all(|&row| seen[row as usize]))
}

fn cut_tapes(case: &mut Case) {
    for asked in &mut case.calls {
        if let Call::Minimise { tape, .. } = &mut asked.call {
            tape.truncate(WORDS);
        }
    }
}

/// Whether the program has room for a case.
fn fits(case: &Case) -> bool {
    let p = &case.problem;
    let records = [p.demand.len(), p.service.len(), p.ready.len(), p.due.len(), p.penalty.len(), p.flags.len()];
    records.iter().all(|&length| length <= RECORDS)
        && p.distances.len().max(p.times.len()) <= MATRIX
        && case.plan.lengths.len().max(case.plan.stops.len()) <= PLAN
        && case.calls.iter().all(|asked| match &asked.call {
            Call::Minimise { tape, cells, .. } => {
                tape.len() <= TAPE && cells.u16s <= U16_CELLS && cells.f64s <= F64_CELLS
            }
            Call::Eliminate { cells } => cells.u16s <= U16_CELLS && cells.f64s <= F64_CELLS,
            call => route(call).len() <= ROUTE,
        })
}

/// The answers of a side to the calls of a case, each with the plan after it.
fn answers(side: &mut dyn Side, problem: &Problem, plan: &Plan, calls: &[Call]) -> Vec<(Answer, Plan)> {
    let mut plan = plan.clone();
    calls.iter().map(|call| (side.call(problem, &mut plan, call), plan.clone())).collect()
}

/// Notes the refusals of a case, and says whether one is new.
fn note_rows(side: &mut dyn Side, case: &Case, seen: &mut [[bool; 10]; KINDS.len()]) -> bool {
    let mut plan = case.plan.clone();
    let mut news = false;
    for asked in &case.calls {
        if let Answer::Refused(row) = side.call(&case.problem, &mut plan, &asked.call) {
            let cell = &mut seen[asked.call.kind()][row as usize];
            news |= !*cell;
            *cell = true;
        }
    }
    news
}

/// The numbers of a line.
#[derive(Default)]
struct Line {
    words: Vec<String>,
}

impl Line {
    fn number(mut self, value: u64) -> Self {
        self.words.push(value.to_string());
        self
    }

    /// A float by its bits; every NaN is the one that the program writes.
    fn float(self, value: f64) -> Self {
        self.number(if value.is_nan() { f64::NAN.to_bits() } else { value.to_bits() })
    }

    /// Two's complement of 32 bits.
    fn int(self, value: i32) -> Self {
        self.number(value as u32 as u64)
    }

    fn slice<T: Copy>(self, values: &[T], put: impl Fn(Line, T) -> Line) -> Self {
        values.iter().fold(self.number(values.len() as u64), |line, &value| put(line, value))
    }

    fn floats(self, values: &[f64]) -> Self {
        self.slice(values, Line::float)
    }

    fn cells(self, values: &[u16]) -> Self {
        self.slice(values, |line, value| line.number(value as u64))
    }

    fn given(self, values: Option<Vec<f64>>, count: usize) -> Self {
        let line = self.number(values.is_some() as u64);
        values.unwrap_or(vec![0.0; count]).into_iter().fold(line, Line::float)
    }

    fn print(self) {
        println!("{}", self.words.join(" "));
    }
}

fn print_case(side: &mut dyn Side, p: &Problem, plan: Plan, calls: &[Call]) {
    let v = &p.vehicle;
    Line::default().number(p.places as u64).print();
    Line::default()
        .int(v.capacity)
        .number(v.depot as u64)
        .float(v.fixed_cost)
        .float(v.cost_per_distance)
        .given(v.max_distance.map(|most| vec![most]), 1)
        .given(v.max_duration.map(|most| vec![most]), 1)
        .given(v.rest.map(floats_of), 3)
        .print();
    Line::default().slice(&p.demand, Line::int).print();
    Line::default().slice(&p.flags, |line, value| line.number(value as u64)).print();
    for floats in [&p.service, &p.ready, &p.due, &p.penalty, &p.distances, &p.times] {
        Line::default().floats(floats).print();
    }
    print_plan(&plan);
    Line::default().number(calls.len() as u64).print();
    for (call, (answer, after)) in calls.iter().zip(answers(side, p, &plan, calls)) {
        call_line(call).print();
        answer_line(&answer).print();
        if call.has_plan() {
            print_plan(&after);
        }
    }
}

fn floats_of(rest: Break) -> Vec<f64> {
    vec![rest.earliest, rest.latest, rest.duration]
}

fn print_plan(plan: &Plan) {
    Line::default().cells(&plan.lengths).print();
    Line::default().cells(&plan.stops).print();
}

fn route(call: &Call) -> &[u16] {
    match call {
        Call::RouteFeasible { route }
        | Call::RouteEval { route }
        | Call::EffectiveCost { route }
        | Call::Schedule { route, .. }
        | Call::RouteDistance { route } => route,
        _ => &[],
    }
}

/// The three floats of a question: a break, a window, or none.
fn beside(call: &Call) -> [f64; 3] {
    match call {
        Call::Schedule { rest, .. } => [rest.earliest, rest.latest, rest.duration],
        Call::TimeWindowNew { ready, due } => [*ready, *due, 0.0],
        _ => [0.0; 3],
    }
}

fn call_line(call: &Call) -> Line {
    let line = Line::default().number(call.kind() as u64);
    match call {
        Call::Minimise { limit, tape, clock, cells } => line
            .number(*limit as u64)
            .number(*clock)
            .number(cells.u16s as u64)
            .number(cells.f64s as u64)
            .slice(tape, Line::number),
        Call::Eliminate { cells } => {
            line.number(0).number(0).number(cells.u16s as u64).number(cells.f64s as u64).number(0)
        }
        _ => beside(call).into_iter().fold(line.cells(route(call)), Line::float),
    }
}

/// An answer as seven numbers: a tag, what the answer holds, and zeros.
fn answer_line(answer: &Answer) -> Line {
    let line = Line::default();
    let mut line = match answer {
        Answer::Refused(row) => line.number(0).number(*row as u64),
        Answer::Minimised { routes, steps, draws } => line.number(1).number(*routes).number(*steps).number(*draws),
        Answer::Eliminated { routes } => line.number(1).number(*routes),
        Answer::Feasible(yes) => line.number(1).number(*yes as u64),
        Answer::Value(value) => line.number(1).float(*value),
        Answer::Route(None) | Answer::Window(None) => line.number(1),
        Answer::Route(Some(eval)) => {
            let sums = [eval.distance, eval.duration, eval.lateness, eval.lateness_cost];
            let line = sums.into_iter().fold(line.number(if eval.rest.is_some() { 3 } else { 2 }), Line::float);
            match eval.rest {
                None => line,
                Some((stop, start)) => line.number(stop as u64).float(start),
            }
        }
        Answer::Window(Some((ready, due))) => line.number(2).float(*ready).float(*due),
        Answer::Panicked => panic!("the original does not panic"),
    };
    while line.words.len() < 7 {
        line = line.number(0);
    }
    line
}
