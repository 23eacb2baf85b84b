//! The sheet program over a side of the comparison: the sheet read, minimise, eliminate, and what is printed. For the benchmarks, the same
//! as a program of the original's own.

use std::fmt::Write;

use super::form::{self, Sheet};
use crate::checks::refusal;
use crate::original::Ready;
use crate::problem::{Answer, Call, Cells, Side};

const CELLS: Cells = Cells { u16s: 8_192, f64s: 2_048, content: 0 };

/// What the program prints for a text on its standard input.
pub fn printed(side: &mut dyn Side, text: &[u8]) -> Vec<u8> {
    bytes(form::read(text).and_then(|sheet| listing(side, sheet)))
}

/// The same over the original's functions, with one entry check and its data made once.
pub fn printed_at_once(text: &[u8]) -> Vec<u8> {
    bytes(form::read(text).and_then(listing_at_once))
}

fn bytes(listing: Result<String, u8>) -> Vec<u8> {
    match listing {
        Ok(listing) => listing.into_bytes(),
        Err(number) => format!("refused {number}\n").into_bytes(),
    }
}

/// The listing of a sheet, or the number of the row, 1 to 9, that refuses it.
fn listing(side: &mut dyn Side, sheet: Sheet) -> Result<String, u8> {
    let Sheet { problem, mut plan, tape, limit, clock } = sheet;
    let given = plan.lengths.len();
    let minimise = Call::Minimise { limit: limit as usize, tape, clock, cells: CELLS };
    let (steps, draws) = match side.call(&problem, &mut plan, &minimise) {
        Answer::Minimised { steps, draws, .. } => (steps, draws),
        Answer::Refused(number) => return Err(number),
        answer => panic!("minimise answered {}", answer.line()),
    };
    match side.call(&problem, &mut plan, &Call::Eliminate { cells: CELLS }) {
        Answer::Eliminated { routes } => plan.lengths.truncate(routes as usize),
        answer => panic!("eliminate answered {}", answer.line()),
    }
    let routes = plan.routes();
    let distance = |route: &[usize]| {
        let route = route.iter().map(|&stop| stop as u16).collect();
        match side.call(&problem, &mut plan, &Call::RouteDistance { route }) {
            Answer::Value(distance) => distance,
            answer => panic!("route_distance answered {}", answer.line()),
        }
    };
    Ok(lines(&problem.demand, &routes, distance, steps, draws, given))
}

fn listing_at_once(sheet: Sheet) -> Result<String, u8> {
    let Sheet { problem, plan, tape, limit, clock } = sheet;
    let (minimise, eliminate) =
        (Call::Minimise { limit: limit as usize, tape, clock, cells: CELLS }, Call::Eliminate { cells: CELLS });
    if let Some(number) = refusal(&problem, &plan, &minimise) {
        return Err(number);
    }
    let mut ready = Ready::new(&problem, &plan, &minimise);
    let Answer::Minimised { steps, draws, .. } = ready.make() else {
        unreachable!("minimise answers with its counts");
    };
    ready.then(&eliminate);
    let distance = |route: &[usize]| ready.distance(route);
    Ok(lines(&problem.demand, &ready.routes, distance, steps, draws, plan.lengths.len()))
}

/// The lines of a listing.
fn lines(
    demand: &[i32],
    routes: &[Vec<usize>],
    mut distance: impl FnMut(&[usize]) -> f64,
    steps: u64,
    draws: u64,
    given: usize,
) -> String {
    let left = routes.len();
    let mut text = format!("routes {left}\n");
    for (index, route) in routes.iter().enumerate() {
        let load: i32 = route.iter().map(|&stop| demand[stop]).sum();
        let distance = distance(route);
        assert!(distance == distance.trunc(), "a sum of whole numbers is a whole number");
        write!(text, "{} {load} {}", index + 1, distance as u64).unwrap();
        for stop in route {
            write!(text, " {stop}").unwrap();
        }
        text.push('\n');
    }
    writeln!(text, "steps {steps} draws {draws} given {given} left {left}").unwrap();
    text
}
