//! The data of a call, as document 01 lends it, the calls, their answers, and what a side of the comparison is.

use std::fmt::Write;

/// The driver's break.
#[derive(Clone, Copy, Debug, PartialEq)]
pub struct Break {
    pub earliest: f64,
    pub latest: f64,
    pub duration: f64,
}

#[derive(Clone, Debug)]
pub struct Vehicle {
    pub capacity: i32,
    pub depot: usize,
    pub fixed_cost: f64,
    pub cost_per_distance: f64,
    pub max_distance: Option<f64>,
    pub max_duration: Option<f64>,
    pub rest: Option<Break>,
}

/// Bit 0 of a place's flags: its window is read.
pub const WINDOW: u8 = 1;
/// Bit 1 of a place's flags: its penalty is read.
pub const PENALTY: u8 = 2;

/// The places' records and the matrices. A slice may have any length: row 1 judges it.
#[derive(Clone, Debug)]
pub struct Problem {
    pub places: usize,
    pub demand: Vec<i32>,
    pub service: Vec<f64>,
    pub ready: Vec<f64>,
    pub due: Vec<f64>,
    pub penalty: Vec<f64>,
    pub flags: Vec<u8>,
    pub distances: Vec<f64>,
    pub times: Vec<f64>,
    pub vehicle: Vehicle,
}

/// Readings of a problem that row 1 accepts.
impl Problem {
    pub fn distance(&self, from: usize, to: usize) -> f64 {
        self.distances[from * self.places + to]
    }

    pub fn travel(&self, from: usize, to: usize) -> f64 {
        if self.times.is_empty() {
            self.distance(from, to)
        } else {
            self.times[from * self.places + to]
        }
    }

    pub fn window(&self, place: usize) -> Option<(f64, f64)> {
        (self.flags[place] & WINDOW != 0).then(|| (self.ready[place], self.due[place]))
    }

    pub fn penalty(&self, place: usize) -> Option<f64> {
        (self.flags[place] & PENALTY != 0).then(|| self.penalty[place])
    }
}

/// A plan's two slices.
#[derive(Clone, Debug, PartialEq)]
pub struct Plan {
    pub lengths: Vec<u16>,
    pub stops: Vec<u16>,
}

impl Plan {
    pub fn of(routes: &[Vec<usize>]) -> Plan {
        Plan {
            lengths: routes.iter().map(|route| route.len() as u16).collect(),
            stops: routes.iter().flatten().map(|&stop| stop as u16).collect(),
        }
    }

    /// The routes of a plan that row 5 accepts.
    pub fn routes(&self) -> Vec<Vec<usize>> {
        let mut from = 0;
        let mut routes = Vec::new();
        for &length in &self.lengths {
            let to = from + length as usize;
            routes.push(self.stops[from..to].iter().map(|&stop| stop as usize).collect());
            from = to;
        }
        routes
    }

    /// Writes the routes that a call answers: later lengths become 0. Returns how many they are.
    pub fn write(&mut self, routes: &[Vec<usize>]) -> u64 {
        let answer = Plan::of(routes);
        self.lengths.fill(0);
        for (cell, length) in self.lengths.iter_mut().zip(answer.lengths) {
            *cell = length;
        }
        for (cell, stop) in self.stops.iter_mut().zip(answer.stops) {
            *cell = stop;
        }
        routes.len() as u64
    }
}

/// The work cells of a call: how many, and the number from which their content is made.
#[derive(Clone, Copy, Debug)]
pub struct Cells {
    pub u16s: usize,
    pub f64s: usize,
    pub content: u64,
}

/// A public call with what it is given beside the problem and the plan.
#[derive(Clone, Debug)]
pub enum Call {
    Minimise { limit: usize, tape: Vec<u64>, clock: u64, cells: Cells },
    Eliminate { cells: Cells },
    RouteFeasible { route: Vec<u16> },
    RouteEval { route: Vec<u16> },
    EffectiveCost { route: Vec<u16> },
    Schedule { route: Vec<u16>, rest: Break },
    RouteDistance { route: Vec<u16> },
    LatenessBound,
    GainFloor,
    TimeWindowNew { ready: f64, due: f64 },
}

/// The calls' names, in the order of `Call::kind`.
pub const KINDS: [&str; 10] = [
    "minimise",
    "eliminate",
    "route_feasible",
    "route_eval",
    "effective_cost",
    "schedule",
    "route_distance",
    "lateness_bound",
    "gain_floor",
    "time_window_new",
];

/// The rows of the table that a call of each kind has input for.
pub const ROWS: [&[u8]; 10] = [
    &[1, 2, 3, 4, 5, 6, 7, 8, 9],
    &[1, 2, 3, 4, 5, 6, 9],
    &[1, 2, 3, 4, 6],
    &[1, 2, 3, 4, 6],
    &[1, 2, 3, 4, 6],
    &[1, 2, 3, 4, 6],
    &[1, 2, 3, 4, 6],
    &[1, 2, 3, 4],
    &[1, 2, 3, 4],
    &[],
];

impl Call {
    pub fn kind(&self) -> usize {
        match self {
            Call::Minimise { .. } => 0,
            Call::Eliminate { .. } => 1,
            Call::RouteFeasible { .. } => 2,
            Call::RouteEval { .. } => 3,
            Call::EffectiveCost { .. } => 4,
            Call::Schedule { .. } => 5,
            Call::RouteDistance { .. } => 6,
            Call::LatenessBound => 7,
            Call::GainFloor => 8,
            Call::TimeWindowNew { .. } => 9,
        }
    }

    pub fn name(&self) -> &'static str {
        KINDS[self.kind()]
    }

    /// The route of a question about one.
    pub fn route(&self) -> Option<&[u16]> {
        match self {
            Call::RouteFeasible { route }
            | Call::RouteEval { route }
            | Call::EffectiveCost { route }
            | Call::Schedule { route, .. }
            | Call::RouteDistance { route } => Some(route),
            _ => None,
        }
    }

    /// Whether the call has a plan, which it then writes.
    pub fn has_plan(&self) -> bool {
        matches!(self, Call::Minimise { .. } | Call::Eliminate { .. })
    }
}

/// What `route_eval` and `schedule` say of a route that is allowed.
#[derive(Clone, Copy, Debug)]
pub struct Eval {
    pub distance: f64,
    pub duration: f64,
    pub lateness: f64,
    pub lateness_cost: f64,
    pub rest: Option<(usize, f64)>,
}

/// What a call answers.
#[derive(Clone, Debug)]
pub enum Answer {
    Refused(u8),
    Minimised {
        routes: u64,
        steps: u64,
        draws: u64,
    },
    Eliminated {
        routes: u64,
    },
    Feasible(bool),
    Value(f64),
    Route(Option<Eval>),
    Window(Option<(f64, f64)>),
    /// The call ended by a panic: never an answer that is right.
    Panicked,
}

impl Answer {
    /// The answer as one line, whole numbers in decimal and floats by their bits: equal lines are equal answers.
    pub fn line(&self) -> String {
        let mut line = String::new();
        match self {
            Answer::Refused(number) => write!(line, "refused {number}"),
            Answer::Minimised { routes, steps, draws } => write!(line, "minimised {routes} {steps} {draws}"),
            Answer::Eliminated { routes } => write!(line, "eliminated {routes}"),
            Answer::Feasible(yes) => write!(line, "feasible {}", *yes as u8),
            Answer::Value(value) => write!(line, "value {}", bits(*value)),
            Answer::Route(None) => write!(line, "not_feasible"),
            Answer::Route(Some(eval)) => {
                let sums = [eval.distance, eval.duration, eval.lateness, eval.lateness_cost].map(bits).join(" ");
                match eval.rest {
                    None => write!(line, "route {sums} -"),
                    Some((stop, start)) => write!(line, "route {sums} {stop} {}", bits(start)),
                }
            }
            Answer::Window(None) => write!(line, "no_window"),
            Answer::Window(Some((ready, due))) => write!(line, "window {} {}", bits(*ready), bits(*due)),
            Answer::Panicked => write!(line, "panicked"),
        }
        .unwrap();
        line
    }

    pub fn refusal(&self) -> Option<u8> {
        match self {
            Answer::Refused(number) => Some(*number),
            _ => None,
        }
    }
}

/// A float by its bits, sixteen hexadecimal digits.
pub fn bits(value: f64) -> String {
    format!("{:016x}", value.to_bits())
}

/// One side of the comparison: every public call, with its refusals, on the same data.
pub trait Side {
    fn name(&self) -> &'static str;

    /// Answers a call. A call other than minimise and eliminate has no plan and leaves it alone; so does a refusal.
    fn call(&mut self, problem: &Problem, plan: &mut Plan, call: &Call) -> Answer;

    /// The answers to a list of minimise and eliminate calls in one, each with the plan after it; none where the side
    /// has no such call.
    fn list(&mut self, _problem: &Problem, _plan: &mut Plan, _calls: &[&Call]) -> Option<Vec<(Answer, Plan)>> {
        None
    }
}
