//! The benchmarks by name: each is one call on one problem, or one sheet.

use super::days::{day, long_route, Kind, Routes};
use crate::problem::{Break, Call, Cells, Plan, Problem};
use crate::random::Random;

/// What is measured.
pub struct Bench {
    pub name: &'static str,
    pub about: &'static str,
    /// Whether it is one of those that differ in size only.
    pub grows: bool,
    pub work: Work,
    /// Whether it is made many times in one measurement: it is short, and each time costs the same.
    pub repeated: bool,
}

/// One call, or a sheet from bytes to bytes.
pub enum Work {
    Call { problem: Problem, plan: Plan, call: Call },
    Sheet(&'static [u8]),
}

const CELLS: Cells = Cells { u16s: 8192, f64s: 2048, content: 1 };

/// The call of a benchmark.
#[derive(Clone, Copy)]
enum Of {
    /// The day's kind, stops, routes, and M.
    Minimise(Kind, usize, usize, usize),
    /// The day's kind, stops and routes; every stop is a route of its own in the plan that is given.
    Eliminate(Kind, usize, usize),
    /// A question about the first so many stops of the long route, among so many places.
    Feasible(usize, usize),
    Eval(usize, usize),
    Cost(usize, usize),
    Schedule(usize, usize),
    Distance(usize, usize),
    /// A question about the day with soft windows.
    Bound,
    Floor,
    /// The day of examples/.
    Sheet,
}

/// The benchmarks, in the order of the tables.
const LIST: &[(&str, &str, Of)] = &[
    ("minimise-windows", "255 stops, 40 routes, windows, M 100", Of::Minimise(Kind::Windows, 255, 40, 100)),
    ("minimise-capacity", "255 stops, 40 routes, no windows, M 100", Of::Minimise(Kind::Capacity, 255, 40, 100)),
    ("minimise-break", "255 stops, 40 routes, break and limits, M 100", Of::Minimise(Kind::Break, 255, 40, 100)),
    ("minimise-63-10-10", "63 stops, 10 routes, windows, M 10", Of::Minimise(Kind::Windows, 63, 10, 10)),
    ("minimise-63-10-100", "63 stops, 10 routes, windows, M 100", Of::Minimise(Kind::Windows, 63, 10, 100)),
    ("minimise-63-10-1000", "63 stops, 10 routes, windows, M 1000", Of::Minimise(Kind::Windows, 63, 10, 1000)),
    ("minimise-127-20-100", "127 stops, 20 routes, windows, M 100", Of::Minimise(Kind::Windows, 127, 20, 100)),
    ("minimise-255-20-100", "255 stops, 20 routes, windows, M 100", Of::Minimise(Kind::Windows, 255, 20, 100)),
    ("minimise-255-80-100", "255 stops, 80 routes, windows, M 100", Of::Minimise(Kind::Windows, 255, 80, 100)),
    ("eliminate-hard", "255 routes of one stop, hard windows", Of::Eliminate(Kind::Windows, 255, 40)),
    ("eliminate-soft", "255 routes of one stop, soft windows", Of::Eliminate(Kind::Soft, 255, 40)),
    ("eliminate-63", "63 routes of one stop, hard windows", Of::Eliminate(Kind::Windows, 63, 10)),
    ("eliminate-127", "127 routes of one stop, hard windows", Of::Eliminate(Kind::Windows, 127, 20)),
    ("feasible-5", "route_feasible, 5 stops of 256 places", Of::Feasible(5, 256)),
    ("feasible-50", "route_feasible, 50 stops of 256 places", Of::Feasible(50, 256)),
    ("feasible-250", "route_feasible, 250 stops of 256 places", Of::Feasible(250, 256)),
    ("eval-5", "route_eval, 5 stops of 256 places", Of::Eval(5, 256)),
    ("eval-50", "route_eval, 50 stops of 256 places", Of::Eval(50, 256)),
    ("eval-250", "route_eval, 250 stops of 256 places", Of::Eval(250, 256)),
    ("small-feasible", "route_feasible, 5 stops of 8 places", Of::Feasible(5, 8)),
    ("small-eval", "route_eval, 5 stops of 8 places", Of::Eval(5, 8)),
    ("question-cost", "effective_cost, 50 stops of 256 places", Of::Cost(50, 256)),
    ("question-schedule", "schedule, 50 stops of 256 places", Of::Schedule(50, 256)),
    ("question-distance", "route_distance, 50 stops of 256 places", Of::Distance(50, 256)),
    ("question-bound", "lateness_bound, 256 places", Of::Bound),
    ("question-floor", "gain_floor, 256 places, the first time", Of::Floor),
    ("sheet-day", "examples/day.sheet, 41 places, 42 routes, M 300", Of::Sheet),
];

/// The names that a word asks for: the one that it is, or all that begin with it and a '-'.
pub fn asked(word: &str) -> Vec<&'static str> {
    let rest = |name: &'static str| name.strip_prefix(word);
    names().filter(|name| rest(name).is_some_and(|rest| rest.is_empty() || rest.starts_with('-'))).collect()
}

pub fn names() -> impl Iterator<Item = &'static str> {
    LIST.iter().map(|entry| entry.0)
}

/// The benchmark of a name.
pub fn bench(name: &str) -> Option<Bench> {
    let &(name, about, of) = LIST.iter().find(|entry| entry.0 == name)?;
    let (work, repeated) = made(of);
    let grows = matches!(of, Of::Minimise(Kind::Windows, ..) | Of::Eliminate(Kind::Windows, ..));
    Some(Bench { name, about, grows, work, repeated })
}

fn made(of: Of) -> (Work, bool) {
    let (problem, routes, call, repeated) = match of {
        Of::Minimise(kind, stops, routes, limit) => {
            let (problem, routes) = day(kind, stops, routes);
            let mut random = Random::new(7);
            let tape = (0..1024).map(|_| random.word()).collect();
            (problem, routes, Call::Minimise { limit, tape, clock: u64::MAX, cells: CELLS }, false)
        }
        Of::Eliminate(kind, stops, routes) => {
            let (problem, _) = day(kind, stops, routes);
            let routes = (1..problem.places).map(|stop| vec![stop]).collect();
            (problem, routes, Call::Eliminate { cells: CELLS }, false)
        }
        Of::Feasible(count, places) => asking(places, count, |route| Call::RouteFeasible { route }),
        Of::Eval(count, places) => asking(places, count, |route| Call::RouteEval { route }),
        Of::Cost(count, places) => asking(places, count, |route| Call::EffectiveCost { route }),
        Of::Schedule(count, places) => asking(places, count, |route| {
            let rest = Break { earliest: 60.0, latest: 300.0, duration: 10.0 };
            Call::Schedule { route, rest }
        }),
        Of::Distance(count, places) => asking(places, count, |route| Call::RouteDistance { route }),
        Of::Bound => (day(Kind::Soft, 255, 40).0, vec![], Call::LatenessBound, true),
        // the original keeps the largest distance of a matrix, so that a second call would cost it nothing
        Of::Floor => (day(Kind::Soft, 255, 40).0, vec![], Call::GainFloor, false),
        Of::Sheet => return (Work::Sheet(include_bytes!("../../../examples/day.sheet")), false),
    };
    (Work::Call { problem, plan: Plan::of(&routes), call }, repeated)
}

/// A question about the first `count` stops of the long route.
fn asking(places: usize, count: usize, call: impl Fn(Vec<u16>) -> Call) -> (Problem, Routes, Call, bool) {
    let (problem, stops) = long_route(places);
    let route = stops[..count].iter().map(|&stop| stop as u16).collect();
    (problem, vec![], call(route), true)
}
