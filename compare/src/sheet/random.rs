//! Random sheets of every kind that the form has, accepted or damaged.

use super::damage::{self, Damaged};
use super::text::Lines;
use crate::generate::whole;
use crate::problem::{Call, Cells, Plan, Problem, Vehicle};
use crate::random::Random;

/// A random sheet: which of the kinds of damage it has, if any, and what it is.
pub struct Case {
    pub damage: Option<usize>,
    pub sheet: Damaged,
}

/// The sheet of a seed: accepted, or damaged in one of the kinds.
pub fn case(seed: u64) -> Case {
    let mut random = Random::new(seed);
    let mut lines = sheet(random.word());
    if random.chance(50) {
        return Case { damage: None, sheet: Damaged { text: lines.join(), planned: Some(0) } };
    }
    loop {
        let kind = random.below(damage::KINDS.len());
        if let Some(mut sheet) = damage::KINDS[kind].1(&mut lines, &mut random) {
            if sheet.text.len() > 60_000 {
                // the length is judged first
                sheet.planned = Some(10);
            }
            return Case { damage: Some(kind), sheet };
        }
        // the sheet has no place for this damage
        lines = sheet(random.word());
    }
}

/// An accepted sheet, some bytes under the most that one may have.
pub fn sheet(seed: u64) -> Lines {
    let (mut problem, plan, call) = whole(seed);
    if Lines::of(&problem, &plan, &call).join().len() > 50_000 {
        problem.times.clear();
    }
    let mut lines = Lines::of(&problem, &plan, &call);
    let mut random = Random::new(!seed);
    if random.chance(15) && problem.places < 50 {
        lines.respell(&mut random);
    }
    lines
}

/// An accepted sheet of 64 places with times, and nothing else to hold its numbers back.
pub fn large(random: &mut Random) -> Lines {
    let n = 64;
    let matrix = |random: &mut Random| (0..n * n).map(|_| random.below(1_000) as f64).collect();
    let vehicle = Vehicle {
        capacity: random.between(40, 200) as i32,
        depot: 0,
        fixed_cost: 0.0,
        cost_per_distance: 1.0,
        max_distance: None,
        max_duration: None,
        rest: None,
    };
    let problem = Problem {
        places: n,
        demand: (0..n).map(|_| random.below(10) as i32).collect(),
        service: vec![0.0; n],
        ready: vec![0.0; n],
        due: vec![0.0; n],
        penalty: vec![0.0; n],
        flags: vec![0; n],
        distances: matrix(random),
        times: matrix(random),
        vehicle,
    };
    let stops: Vec<usize> = (1..n).collect();
    let routes: Vec<Vec<usize>> = stops.chunks(random.between(1, 9)).map(<[usize]>::to_vec).collect();
    let cells = Cells { u16s: 8_192, f64s: 2_048, content: 0 };
    let call = Call::Minimise { limit: 5, tape: vec![random.below(1_000) as u64; 3], clock: 20, cells };
    Lines::of(&problem, &Plan::of(&routes), &call)
}
