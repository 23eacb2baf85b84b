//! Problems and calls with a side's answers, as lines: whole numbers in decimal, floats by their bits.
//!
//!   case SEED
//!   vehicle CAPACITY DEPOT FIXED PER_DISTANCE MAX_DISTANCE MAX_DURATION EARLIEST LATEST DURATION
//!   places N, then a line for each record slice (demand, service, ready, due, penalty, flags), distances, times
//!   lengths and stops: the first plan
//!   a call, its answer, and after minimise and eliminate both slices of the plan again
//!   end
//!
//! `-` stands for a limit or break that is not there. A slice's line is its name and its values.

use crate::generate::{case, case_seed, Case};
use crate::problem::{bits, Answer, Call, Plan, Problem, Side};

/// Prints the first `count` cases of a seed that have at most `most` places and whose calls take at most `steps` steps.
pub fn print(side: &mut dyn Side, count: u64, seed: u64, most: usize, steps: u64) {
    let mut printed = 0;
    let mut index = 0;
    while printed < count {
        let case = case(case_seed(seed, index), most);
        if longest(side, &case) <= steps {
            print_case(side, &case);
            printed += 1;
        }
        index += 1;
    }
}

/// The most steps that a call of a case takes.
pub fn longest(side: &mut dyn Side, case: &Case) -> u64 {
    let mut plan = case.plan.clone();
    let mut most = 0;
    for asked in &case.calls {
        if let Answer::Minimised { steps, .. } = side.call(&case.problem, &mut plan, &asked.call) {
            most = most.max(steps);
        }
    }
    most
}

/// Prints one case with a side's answers.
pub fn print_case(side: &mut dyn Side, case: &Case) {
    println!("case {}", case.seed);
    print_problem(&case.problem);
    let mut plan = case.plan.clone();
    print_plan(&plan);
    for asked in &case.calls {
        println!("{}", call_line(&asked.call));
        println!("{}", side.call(&case.problem, &mut plan, &asked.call).line());
        if asked.call.has_plan() {
            print_plan(&plan);
        }
    }
    println!("end");
}

pub fn print_problem(p: &Problem) {
    let v = &p.vehicle;
    let or_dash = |value: Option<f64>| value.map_or("-".to_string(), bits);
    println!(
        "vehicle {} {} {} {} {} {} {} {} {}",
        v.capacity,
        v.depot,
        bits(v.fixed_cost),
        bits(v.cost_per_distance),
        or_dash(v.max_distance),
        or_dash(v.max_duration),
        or_dash(v.rest.map(|rest| rest.earliest)),
        or_dash(v.rest.map(|rest| rest.latest)),
        or_dash(v.rest.map(|rest| rest.duration)),
    );
    println!("places {}", p.places);
    println!("{}", line("demand", p.demand.iter()));
    println!("{}", line("service", p.service.iter().map(|&x| bits(x))));
    println!("{}", line("ready", p.ready.iter().map(|&x| bits(x))));
    println!("{}", line("due", p.due.iter().map(|&x| bits(x))));
    println!("{}", line("penalty", p.penalty.iter().map(|&x| bits(x))));
    println!("{}", line("flags", p.flags.iter()));
    println!("{}", line("distances", p.distances.iter().map(|&x| bits(x))));
    println!("{}", line("times", p.times.iter().map(|&x| bits(x))));
}

pub fn print_plan(plan: &Plan) {
    println!("{}", line("lengths", plan.lengths.iter()));
    println!("{}", line("stops", plan.stops.iter()));
}

/// A call as one line: its name, what it is given, and a slice last.
pub fn call_line(call: &Call) -> String {
    let name = call.name();
    match call {
        Call::Minimise { limit, tape, clock, cells } => {
            line(&format!("{name} {limit} {clock} {} {}", cells.u16s, cells.f64s), tape.iter())
        }
        Call::Eliminate { cells } => format!("{name} {} {}", cells.u16s, cells.f64s),
        Call::RouteFeasible { route }
        | Call::RouteEval { route }
        | Call::EffectiveCost { route }
        | Call::RouteDistance { route } => line(name, route.iter()),
        Call::Schedule { route, rest } => {
            let rest = [rest.earliest, rest.latest, rest.duration].map(bits).join(" ");
            line(&format!("{name} {rest}"), route.iter())
        }
        Call::LatenessBound | Call::GainFloor => name.to_string(),
        Call::TimeWindowNew { ready, due } => format!("{name} {} {}", bits(*ready), bits(*due)),
    }
}

fn line<T: ToString>(name: &str, values: impl Iterator<Item = T>) -> String {
    let mut line = name.to_string();
    for value in values {
        line.push(' ');
        line += &value.to_string();
    }
    line
}
