//! A run: random calls put to every side, each answer and both plan slices held against the first side's.

use std::panic::{catch_unwind, AssertUnwindSafe};

use crate::answers::call_line;
use crate::claim::Claim;
use crate::generate::{case, case_seed, Case};
use crate::problem::{Answer, Call, Plan, Problem, Side, KINDS, ROWS};

/// The most places that a problem may have.
pub const MOST_PLACES: usize = 256;

/// What a run has seen.
#[derive(Default)]
pub struct Seen {
    pub calls: u64,
    pub differ: u64,
    pub cases: u64,
    /// Lists of calls that were put to a side in one, the calls in them, and the lists that differ.
    pub lists: u64,
    pub listed: u64,
    pub lists_differ: u64,
    /// Accepted calls of each kind.
    pub accepted: [u64; KINDS.len()],
    /// Refused calls of each kind, by row.
    pub refused: [[u64; 10]; KINDS.len()],
}

/// Compares `count` calls of a seed; the first side is the one that the others are held against.
pub fn run(sides: &mut [&mut dyn Side], count: u64, seed: u64) -> Seen {
    let mut seen = Seen::default();
    while seen.calls < count {
        let case = case(case_seed(seed, seen.cases), MOST_PLACES);
        run_case(sides, &case, count, &mut seen);
        seen.cases += 1;
    }
    seen
}

/// Compares the calls of one case, up to `count` in all.
pub fn run_case(sides: &mut [&mut dyn Side], case: &Case, count: u64, seen: &mut Seen) {
    let mut plan = case.plan.clone();
    let mut claim = Claim::of(&case.problem, &case.plan);
    let mut right_replies = vec![];
    for (index, asked) in case.calls.iter().enumerate() {
        if seen.calls == count {
            return;
        }
        seen.calls += 1;
        let given = plan.clone();
        let right = ask(sides[0], &case.problem, &mut plan, &asked.call);
        let kind = asked.call.kind();
        match right.refusal() {
            None => seen.accepted[kind] += 1,
            Some(row) => seen.refused[kind][row as usize] += 1,
        }
        let mut faults = vec![];
        if right.refusal() != asked.refusal {
            faults.push(format!("refusal {:?} was planned", asked.refusal));
        }
        if let Some(what) = claim.broken(&given, &plan, &asked.call, &right) {
            faults.push(format!("demand 3: {what}"));
        }
        for side in sides[1..].iter_mut() {
            let mut other = given.clone();
            let answer = ask(*side, &case.problem, &mut other, &asked.call);
            if answer.line() != right.line() || other != plan {
                faults.push(format!("{}: {} {:?} {:?}", side.name(), answer.line(), other.lengths, other.stops));
            }
        }
        if !faults.is_empty() {
            seen.differ += 1;
            if seen.differ <= 5 {
                println!("case {} call {index}: {}", case.seed, shortened(&call_line(&asked.call)));
                println!("  {}: {} {:?} {:?}", sides[0].name(), right.line(), plan.lengths, plan.stops);
                for fault in faults {
                    println!("  {fault}");
                }
            }
        }
        if asked.call.has_plan() {
            right_replies.push((right, plan.clone()));
        }
    }
    for side in sides[1..].iter_mut() {
        run_list(*side, case, &right_replies, seen);
    }
}

/// Puts the case's minimise and eliminate calls to a side as one list, and compares what it records of each.
fn run_list(side: &mut dyn Side, case: &Case, right: &[(Answer, Plan)], seen: &mut Seen) {
    let calls: Vec<&Call> = case.calls.iter().map(|asked| &asked.call).filter(|call| call.has_plan()).collect();
    let mut plan = case.plan.clone();
    let asked = catch_unwind(AssertUnwindSafe(|| side.list(&case.problem, &mut plan, &calls)));
    let lines = |replies: &[(Answer, Plan)]| -> Vec<String> {
        replies.iter().map(|(answer, plan)| format!("{} {:?} {:?}", answer.line(), plan.lengths, plan.stops)).collect()
    };
    let said = match asked {
        Ok(None) => return,
        Ok(Some(replies)) => lines(&replies),
        Err(_) => vec![Answer::Panicked.line()],
    };
    seen.lists += 1;
    seen.listed += calls.len() as u64;
    let last = right.last().map_or(&case.plan, |reply| &reply.1);
    if said != lines(right) || plan != *last {
        seen.lists_differ += 1;
        if seen.lists_differ <= 5 {
            println!("case {}: {} as a list of {} calls: {said:?}", case.seed, side.name(), calls.len());
        }
    }
}

/// A side's answer; a panic is an answer of its own, and leaves the plan as it was.
fn ask(side: &mut dyn Side, problem: &Problem, plan: &mut Plan, call: &Call) -> Answer {
    catch_unwind(AssertUnwindSafe(|| side.call(problem, plan, call))).unwrap_or(Answer::Panicked)
}

fn shortened(line: &str) -> String {
    if line.len() <= 120 {
        line.to_string()
    } else {
        format!("{} ..", &line[..120])
    }
}

impl Seen {
    /// Kinds never accepted, kinds never refused for a row that they have, and lists where there was none.
    pub fn missing(&self) -> Vec<String> {
        let mut missing = vec![];
        if self.listed == 0 {
            missing.push("a list of calls".to_string());
        }
        for (kind, name) in KINDS.iter().enumerate() {
            if self.accepted[kind] == 0 {
                missing.push(format!("{name} accepted"));
            }
            for &row in ROWS[kind] {
                if self.refused[kind][row as usize] == 0 {
                    missing.push(format!("{name} refused with {row}"));
                }
            }
        }
        missing
    }

    pub fn print(&self) {
        print!("{:17}{:>9}", "call", "accepted");
        for row in 1..=9 {
            print!("{row:>6}");
        }
        println!("  refused with");
        for (kind, name) in KINDS.iter().enumerate() {
            print!("{name:17}{:>9}", self.accepted[kind]);
            for row in 1..=9u8 {
                if ROWS[kind].contains(&row) {
                    print!("{:>6}", self.refused[kind][row as usize]);
                } else {
                    print!("{:>6}", ".");
                }
            }
            println!();
        }
    }
}
