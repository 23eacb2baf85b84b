//! Document 01's twelve cases around the edges, asked of a side.

use crate::problem::{Answer, Break, Call, Cells, Plan, Problem, Side, Vehicle, PENALTY, WINDOW};

const CELLS: Cells = Cells { u16s: 8192, f64s: 2048, content: 0 };

/// A problem of n places with the given distances, capacity 10, and nothing else set.
fn plain(n: usize, distances: &[f64]) -> Problem {
    Problem {
        places: n,
        demand: vec![0; n],
        service: vec![0.0; n],
        ready: vec![0.0; n],
        due: vec![0.0; n],
        penalty: vec![0.0; n],
        flags: vec![0; n],
        distances: distances.to_vec(),
        times: vec![],
        vehicle: Vehicle {
            capacity: 10,
            depot: 0,
            fixed_cost: 0.0,
            cost_per_distance: 1.0,
            max_distance: None,
            max_duration: None,
            rest: None,
        },
    }
}

/// One stop, there and back, due at 480.
fn due_480(there: f64, back: f64) -> Problem {
    let mut problem = plain(2, &[0.0, there, back, 0.0]);
    problem.flags[1] = WINDOW;
    problem.due[1] = 480.0;
    problem
}

/// One stop reached at 481, due at 480 with a penalty of 2.
fn soft_481() -> Problem {
    let mut problem = due_480(481.0, 481.0);
    problem.flags[1] |= PENALTY;
    problem.penalty[1] = 2.0;
    problem
}

/// A depot alone, and a break from 0.
fn none_needed() -> Problem {
    let mut problem = plain(1, &[0.0]);
    problem.vehicle.rest = Some(Break { earliest: 0.0, latest: 0.0, duration: 1.0 });
    problem
}

/// One stop at 60 with a break of 30 from 100.
fn rested(back: f64, latest: f64) -> Problem {
    let mut problem = plain(2, &[0.0, 60.0, back, 0.0]);
    problem.vehicle.rest = Some(Break { earliest: 100.0, latest, duration: 30.0 });
    problem
}

/// The sheet's problem, with the demand of place 2 and the distance limit.
fn sheet(demand: i32, max_distance: Option<f64>) -> Problem {
    let mut problem = plain(3, &[0.0, 10.0, 10.0, 10.0, 0.0, 5.0, 10.0, 5.0, 0.0]);
    problem.demand = vec![0, 4, demand];
    problem.vehicle.max_distance = max_distance;
    problem
}

/// The sheet's problem with a soft window at place 1.
fn soft_sheet() -> Problem {
    let mut problem = sheet(5, None);
    problem.flags[1] = WINDOW | PENALTY;
    problem.due[1] = 100.0;
    problem
}

fn minimise(limit: usize, clock: u64) -> Call {
    Call::Minimise { limit, tape: vec![7], clock, cells: CELLS }
}

/// A side's answers to a list of calls, each on the plan as the last one left it, with the plan after each.
fn asked(side: &mut dyn Side, problem: &Problem, routes: &[Vec<usize>], calls: &[Call]) -> Vec<String> {
    let mut plan = Plan::of(routes);
    let mut lines = vec![];
    for call in calls {
        let answer = side.call(problem, &mut plan, call);
        lines.push(format!("{} lengths {:?} stops {:?}", answer.line(), plan.lengths, plan.stops));
    }
    lines
}

fn eval(side: &mut dyn Side, problem: &Problem, route: &[u16]) -> Option<crate::problem::Eval> {
    let mut plan = Plan { lengths: vec![], stops: vec![] };
    match side.call(problem, &mut plan, &Call::RouteEval { route: route.to_vec() }) {
        Answer::Route(eval) => eval,
        _ => None,
    }
}

fn feasible(side: &mut dyn Side, problem: &Problem, route: &[u16]) -> bool {
    let mut plan = Plan { lengths: vec![], stops: vec![] };
    let answer = side.call(problem, &mut plan, &Call::RouteFeasible { route: route.to_vec() });
    matches!(answer, Answer::Feasible(true))
}

/// The numbers of the cases that a side does not answer as document 01 says.
pub fn wrong(side: &mut dyn Side) -> Vec<usize> {
    let two = [vec![1], vec![2]];
    let both = [minimise(5, 5), Call::Eliminate { cells: CELLS }];
    let merged = ["minimised 1 2 0 lengths [2, 0] stops [1, 2]", "eliminated 1 lengths [2, 0] stops [1, 2]"];
    let kept = |steps: u64| format!("minimised 2 {steps} 0 lengths [1, 1] stops [1, 2]");
    let late = eval(side, &soft_481(), &[1]);
    let with_empty = [vec![], vec![1], vec![2]];

    let right = [
        feasible(side, &due_480(480.0, 480.0), &[1]),
        !feasible(side, &due_480(481.0, 481.0), &[1]),
        late.is_some_and(|e| e.lateness == 1.0 && e.distance + e.lateness_cost == 964.0),
        asked(side, &sheet(6, None), &two, &both) == merged
            && asked(side, &sheet(7, None), &two, &both[1..]) == ["eliminated 2 lengths [1, 1] stops [1, 2]"],
        eval(side, &rested(40.0, 200.0), &[1]).is_some_and(|e| e.rest.is_none() && e.duration == 100.0),
        eval(side, &rested(41.0, 200.0), &[1]).is_some_and(|e| e.rest == Some((0, 100.0)) && e.duration == 171.0),
        !feasible(side, &rested(41.0, 99.0), &[1]),
        eval(side, &none_needed(), &[]).is_some_and(|e| e.rest.is_none()),
        asked(side, &sheet(5, None), &two, &both) == merged,
        asked(side, &sheet(5, None), &two, &[minimise(0, 5)]) == [kept(0)]
            && asked(side, &sheet(5, None), &two, &[minimise(5, 0)]) == [kept(0)],
        asked(side, &sheet(5, Some(25.0)), &two, &both) == merged
            && asked(side, &sheet(5, Some(24.0)), &two, &[minimise(5, 5)])[0].starts_with("minimised 2 5 ")
            && asked(side, &sheet(5, Some(24.0)), &two, &[minimise(5, 10)])[0].starts_with("minimised 2 10 "),
        asked(side, &sheet(5, None), &with_empty, &[minimise(0, 5)])
            == ["minimised 2 0 0 lengths [1, 1, 0] stops [1, 2]"]
            && asked(side, &soft_sheet(), &with_empty, &[minimise(0, 5)])
                == ["minimised 3 0 0 lengths [0, 1, 1] stops [1, 2]"],
    ];
    (1..=right.len()).filter(|&number| !right[number - 1]).collect()
}

/// Every problem, first plan and list of calls of the twelve cases, in their order.
pub fn listed() -> Vec<(Problem, Plan, Vec<Call>)> {
    let none = Plan { lengths: vec![], stops: vec![] };
    let two = || Plan::of(&[vec![1], vec![2]]);
    let three = || Plan::of(&[vec![], vec![1], vec![2]]);
    let both = || vec![minimise(5, 5), Call::Eliminate { cells: CELLS }];
    let passes = |route: Vec<u16>| vec![Call::RouteFeasible { route: route.clone() }, Call::RouteEval { route }];
    vec![
        (due_480(480.0, 480.0), none.clone(), passes(vec![1])),
        (due_480(481.0, 481.0), none.clone(), passes(vec![1])),
        (soft_481(), none.clone(), passes(vec![1])),
        (sheet(6, None), two(), both()),
        (sheet(7, None), two(), both()),
        (rested(40.0, 200.0), none.clone(), passes(vec![1])),
        (rested(41.0, 200.0), none.clone(), passes(vec![1])),
        (rested(41.0, 99.0), none.clone(), passes(vec![1])),
        (none_needed(), none, passes(vec![])),
        (sheet(5, None), two(), both()),
        (sheet(5, None), two(), vec![minimise(0, 5), minimise(5, 0)]),
        (sheet(5, Some(25.0)), two(), both()),
        (sheet(5, Some(24.0)), two(), vec![minimise(5, 5), minimise(5, 10)]),
        (sheet(5, None), three(), vec![minimise(0, 5)]),
        (soft_sheet(), three(), vec![minimise(0, 5)]),
    ]
}
