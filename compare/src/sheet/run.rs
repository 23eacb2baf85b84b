//! A run: random sheets, and every edit of two small ones.

use std::time::Instant;

use super::compared::Compared;
use super::damage::KINDS;
use super::edits::{each, SAMPLE, SMALL};
use super::random::case;
use crate::generate::case_seed;

/// Compares `count` random sheets of a seed, and all edits; prints what was reached. Whether all agree and all was reached.
pub fn run(count: u64, seed: u64) -> bool {
    let began = Instant::now();
    let mut random = Compared::new(seed, true);
    let mut damaged = vec![0u64; KINDS.len()];
    for index in 0..count {
        let seed = case_seed(seed, index);
        let case = case(seed);
        if let Some(kind) = case.damage {
            damaged[kind] += 1;
        }
        random.ask(&case.sheet.text, case.sheet.planned, &|| {
            format!("sheet {seed}, {}", case.damage.map_or("not damaged", |kind| KINDS[kind].0))
        });
    }
    println!("random sheets, {:.1} s", began.elapsed().as_secs_f64());
    random.print_refused();
    random.print_features();
    for (kind, count) in KINDS.iter().zip(&damaged) {
        println!("{count:>10}  {}", kind.0);
    }

    let began = Instant::now();
    let mut edits = Compared::new(seed, false);
    for (sheet, name) in [(SAMPLE, "the sample"), (SMALL, "the small sheet")] {
        edits.ask(sheet, Some(0), &|| name.to_string());
        each(sheet, &mut |text| edits.ask(text, None, &|| format!("{name}, edited")));
    }
    println!("edits of two sheets, {:.1} s", began.elapsed().as_secs_f64());
    edits.print_refused();

    let mut fault = random.differ + edits.differ > 0;
    for name in random.missing() {
        println!("never reached: {name}");
        fault = true;
    }
    for (kind, _) in KINDS.iter().zip(&damaged).filter(|(_, count)| **count == 0) {
        println!("never reached: {}", kind.0);
        fault = true;
    }
    println!(
        "{} random sheets and {} edits compared, {} differ",
        random.sheets,
        edits.sheets,
        random.differ + edits.differ
    );
    !fault
}
