//! The sheets of crates/sheet_cases, which that program plans one after the other, and what the original prints for them.

use super::compared::{features, refusal};
use super::edits::{SAMPLE, SMALL};
use super::program::printed;
use super::random::case;
use super::text::Lines;
use crate::generate::case_seed;
use crate::original::Original;
use crate::problem::{Call, Cells, Plan, Problem, Vehicle};

/// The sample, the small sheet, one of 64 places, random ones, the first under 500 bytes of ASCII text with something that none before it has, and one
/// byte too many.
fn sheets() -> Vec<Vec<u8>> {
    let mut sheets = vec![SAMPLE.to_vec(), SMALL.to_vec(), full()];
    let mut seen = vec![];
    for index in 0..5_000 {
        let case = case(case_seed(8, index));
        let text = case.sheet.text;
        let plain = text.iter().all(|&byte| byte == b'\n' || matches!(byte, b' '..=b'~'));
        if text.len() >= 500 || !plain {
            continue;
        }
        // its damage, its refusal, what it has
        let mut marks = vec![(0, case.damage.map_or(0, |kind| kind + 1))];
        let answer = String::from_utf8(printed(&mut Original, &text)).unwrap();
        marks.extend(refusal(&answer).map(|row| (1, row as usize)));
        if let Some(has) = features(&text, &answer) {
            marks.extend(has.iter().enumerate().filter(|has| *has.1).map(|has| (2, has.0)));
        }
        marks.retain(|mark| !seen.contains(mark));
        if !marks.is_empty() {
            seen.extend(marks);
            sheets.push(text);
        }
    }
    sheets.push(vec![b'\n'; 60_001]);
    sheets
}

/// A sheet of 64 places, 63 stops and negative demands, with distances of one digit.
fn full() -> Vec<u8> {
    let n = 64;
    let vehicle = Vehicle {
        capacity: 12,
        depot: 0,
        fixed_cost: 6.0,
        cost_per_distance: 2.0,
        max_distance: None,
        max_duration: None,
        rest: None,
    };
    let problem = Problem {
        places: n,
        demand: (0..n as i32).map(|i| i * 5 % 7 - 2).collect(),
        service: vec![0.0; n],
        ready: vec![0.0; n],
        due: vec![0.0; n],
        penalty: vec![0.0; n],
        flags: vec![0; n],
        distances: (0..n * n).map(|k| (1 + (k / n * 7 + k % n * 3) % 9) as f64).collect(),
        times: vec![],
        vehicle,
    };
    let stops: Vec<usize> = (1..n).collect();
    let routes: Vec<Vec<usize>> = stops.chunks(3).map(<[usize]>::to_vec).collect();
    let cells = Cells { u16s: 8_192, f64s: 2_048, content: 0 };
    let call = Call::Minimise { limit: 6, tape: vec![5, 12, 7], clock: 60, cells };
    Lines::of(&problem, &Plan::of(&routes), &call).join()
}

/// The sheets one after the other, each behind its number of bytes in decimal and LF.
pub fn input() -> Vec<u8> {
    sheets().iter().flat_map(|sheet| [format!("{}\n", sheet.len()).as_bytes(), sheet].concat()).collect()
}

/// What the original prints for each.
pub fn output() -> Vec<u8> {
    sheets().iter().flat_map(|sheet| printed(&mut Original, sheet)).collect()
}
