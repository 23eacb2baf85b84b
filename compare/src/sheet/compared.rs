//! What the sides print for one sheet, held against each other, and what the sheets have shown so far.

use std::panic::{catch_unwind, AssertUnwindSafe};

use super::form::{self, Sheet};
use super::{ported, program};
use crate::model::Model;
use crate::original::Original;
use crate::problem::{PENALTY, WINDOW};
use crate::random::Random;

/// The rows of the table that can refuse a sheet.
pub const ROWS: [usize; 8] = [2, 3, 6, 7, 8, 10, 11, 12];

/// Words, and a question about an accepted sheet and its listing.
type Feature = (&'static str, fn(&Sheet, &Printed) -> bool);

/// What an accepted sheet may have, and its listing.
const FEATURES: [Feature; 24] = [
    ("a hard window", |s, _| s.problem.flags.contains(&WINDOW)),
    ("a soft window", |s, _| s.problem.flags.contains(&(WINDOW | PENALTY))),
    ("a penalty without a window", |s, _| s.problem.flags.contains(&PENALTY)),
    ("a break", |s, _| s.problem.vehicle.rest.is_some()),
    ("a distance limit", |s, _| s.problem.vehicle.max_distance.is_some()),
    ("a duration limit", |s, _| s.problem.vehicle.max_duration.is_some()),
    ("times", |s, _| !s.problem.times.is_empty()),
    ("a fixed cost", |s, _| s.problem.vehicle.fixed_cost > 0.0),
    ("a negative demand", |s, _| s.problem.demand.iter().any(|&demand| demand < 0)),
    ("a negative capacity", |s, _| s.problem.vehicle.capacity < 0),
    ("a negative load", |_, p| p.text.contains(" -")),
    ("an empty route", |s, _| s.plan.lengths.contains(&0)),
    ("no routes", |s, _| s.plan.lengths.is_empty()),
    ("64 routes", |s, _| s.plan.lengths.len() == 64),
    ("1 place", |s, _| s.problem.places == 1),
    ("64 places", |s, _| s.problem.places == 64),
    ("63 stops", |s, _| s.plan.stops.len() == 63),
    ("1,024 draws", |s, _| s.tape.len() == 1_024),
    ("a step limit of 0", |s, _| s.limit == 0),
    ("a step limit of 65,535", |s, _| s.limit == 65_535),
    ("a clock of 0", |s, _| s.clock == 0),
    ("steps in the listing", |_, p| p.steps > 0),
    ("draws in the listing", |_, p| p.draws > 0),
    ("fewer routes than given", |s, p| p.left < s.plan.lengths.iter().filter(|&&length| length > 0).count()),
];

/// A listing's text, and the numbers of its last line.
struct Printed<'a> {
    text: &'a str,
    steps: u64,
    draws: u64,
    left: usize,
}

/// The sides, and what they have been asked.
pub struct Compared {
    random: Random,
    /// Whether the model is asked too.
    pub with_model: bool,
    pub sheets: u64,
    pub differ: u64,
    pub accepted: u64,
    pub refused: [u64; 13],
    features: [u64; FEATURES.len()],
}

impl Compared {
    pub fn new(seed: u64, with_model: bool) -> Self {
        let random = Random::new(seed);
        Compared {
            random,
            with_model,
            sheets: 0,
            differ: 0,
            accepted: 0,
            refused: [0; 13],
            features: [0; FEATURES.len()],
        }
    }

    /// Puts a sheet to every side. `planned` is the number that it must be refused with, 0 for none, where that is known; `name` says
    /// which sheet it is where something differs.
    pub fn ask(&mut self, text: &[u8], planned: Option<u8>, name: &dyn Fn() -> String) {
        self.sheets += 1;
        let right = caught(|| program::printed(&mut Original, text));
        let number = self.note(text, &right);
        let mut faults = vec![];
        match number {
            None => faults.push("it is no listing and no refusal".to_string()),
            Some(number) if planned.is_some_and(|planned| planned != number) => {
                faults.push(format!("{} was planned", planned.unwrap()));
            }
            _ => {}
        }
        if self.with_model {
            let model = caught(|| program::printed(&mut Model::default(), text));
            if model != right {
                faults.push(format!("the model prints {}", shown(&model)));
            }
        }
        match ported::printed(text, &mut self.random) {
            Ok(printed) if printed == right => {}
            Ok(printed) => faults.push(format!("the port prints {}", shown(&printed))),
            Err(fault) => faults.push(format!("the port: {fault}")),
        }
        if !faults.is_empty() {
            self.differ += 1;
            if self.differ <= 5 {
                println!("{}: the original prints {}", name(), shown(&right));
                for fault in faults {
                    println!("  {fault}");
                }
                println!("  the sheet: {}", shown(text));
            }
        }
    }

    /// Counts what a sheet is, and returns the number that it is refused with, 0 for none; nothing where what is printed has not the form.
    fn note(&mut self, text: &[u8], printed: &[u8]) -> Option<u8> {
        let printed = std::str::from_utf8(printed).ok()?;
        if let Some(number) = refusal(printed) {
            self.refused[number as usize] += 1;
            return Some(number);
        }
        let features = features(text, printed)?;
        self.accepted += 1;
        for (count, has) in self.features.iter_mut().zip(features) {
            *count += has as u64;
        }
        Some(0)
    }

    /// The rows that refused no sheet, and what no accepted sheet had.
    pub fn missing(&self) -> Vec<String> {
        let rows = ROWS.iter().filter(|&&row| self.refused[row] == 0).map(|row| format!("a sheet refused with {row}"));
        let features =
            FEATURES.iter().zip(self.features).filter(|(_, count)| *count == 0).map(|(f, _)| f.0.to_string());
        rows.chain(features).collect()
    }

    pub fn print_refused(&self) {
        print!("{:>10} accepted; refused with", self.accepted);
        for row in ROWS {
            print!("  {row}: {}", self.refused[row]);
        }
        println!();
    }

    pub fn print_features(&self) {
        for (feature, count) in FEATURES.iter().zip(self.features) {
            println!("{count:>10}  {}", feature.0);
        }
    }
}

/// What an accepted sheet and its listing have, in the order of `FEATURES`; nothing where one of the two has not its form.
pub fn features(text: &[u8], printed: &str) -> Option<[bool; FEATURES.len()]> {
    let printed = listing(printed)?;
    let sheet = form::read(text).ok()?;
    Some(FEATURES.map(|feature| feature.1(&sheet, &printed)))
}

/// The row of a refusal line.
pub fn refusal(printed: &str) -> Option<u8> {
    let number = printed.strip_prefix("refused ")?.strip_suffix('\n')?;
    ROWS.iter().find(|row| row.to_string() == number).map(|&row| row as u8)
}

/// A listing, where the text has its form: the first line's number is that of the route lines, which are numbered from 1.
fn listing(text: &str) -> Option<Printed<'_>> {
    let mut lines = text.strip_suffix('\n')?.split('\n');
    let left: usize = decimal(lines.next()?.strip_prefix("routes ")?)?;
    for route in 1..=left {
        let tokens: Vec<&str> = lines.next()?.split(' ').collect();
        let load = tokens.get(1)?;
        let negative = load.strip_prefix('-');
        let numbers = [&[tokens[0], negative.unwrap_or(load)], tokens.get(2..)?].concat();
        if tokens.len() < 4 || decimal(tokens[0]) != Some(route) || negative == Some("0") {
            return None;
        }
        numbers.into_iter().map(decimal::<u64>).collect::<Option<Vec<u64>>>()?;
    }
    let last: Vec<&str> = lines.next()?.split(' ').collect();
    let ["steps", steps, "draws", draws, "given", given, "left", again] = last[..] else {
        return None;
    };
    let given: usize = decimal(given)?;
    (lines.next().is_none() && decimal(again) == Some(left) && left <= given).then_some(Printed {
        text,
        steps: decimal(steps)?,
        draws: decimal(draws)?,
        left,
    })
}

/// A number as it prints, without leading zeros.
fn decimal<T: std::str::FromStr + ToString>(text: &str) -> Option<T> {
    text.parse().ok().filter(|number: &T| number.to_string() == text)
}

/// What a side prints; a panic prints a line that no side prints.
fn caught(printed: impl FnOnce() -> Vec<u8>) -> Vec<u8> {
    catch_unwind(AssertUnwindSafe(printed)).unwrap_or_else(|_| b"panicked\n".to_vec())
}

/// Bytes in quotes, cut where they are many.
fn shown(bytes: &[u8]) -> String {
    let text = String::from_utf8_lossy(&bytes[..bytes.len().min(400)]);
    format!("{text:?}{}", if bytes.len() > 400 { " .." } else { "" })
}
