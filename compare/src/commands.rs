//! The commands: a run of the comparison, one case in full, cases with the original's answers, for people and for the program replay, the
//! same for sheets, and the benchmarks.

use std::io::{self, Read, Write};
use std::panic::{catch_unwind, AssertUnwindSafe};
use std::time::Duration;

use comparison::model::Model;
use comparison::original::Original;
use comparison::ported::Port;
use comparison::problem::Side;
use comparison::{answers, bench, cases, generate, replay, run, sheet, ORIGINAL};

const USAGE: &str = "compare [COUNT] [SEED]           compares COUNT calls (20000) of SEED (1)
compare --case CASE [PLACES]     prints the case of that number with every side's answers
compare --answers N SEED [PLACES] [STEPS]
                                 prints N cases with the original's answers, of at most PLACES places (8) each,
                                 and with at most STEPS steps (100) in a call
compare --replay N SEED [PLACES] [STEPS]
                                 prints N such cases, the twelve and some for every row, for the program replay
compare --sheet                  prints what the original prints for the sheet on standard input
compare --sheets [COUNT] [SEED]  compares COUNT random sheets (5000) of SEED (1), and every edit of two small ones
compare --sheet-case SHEET       prints the random sheet of that number
compare --fuzz-sheets MINUTES [SEED]
                                 compares random, cut, spliced and changed texts for so long
compare --sheet-cases            prints sheets for the program sheet_cases, each after its number of bytes
compare --sheet-listings         prints what the original prints for them
compare --bench [NAME ..]        measures original and port, all benchmarks or those of these names
compare --bench-once SIDE NAME   does the work of one benchmark on one side: original, checked or port";

/// Runs the command that the words name, and returns its exit status.
pub fn run(words: &[String]) -> i32 {
    let (command, words) = match words.first() {
        Some(word) if word.starts_with("--") => (word.as_str(), &words[1..]),
        _ => ("", words),
    };
    match (command, words) {
        ("--bench", words) => return bench::run(words),
        ("--bench-once", [side, name]) => return bench::once(side, name),
        _ => {}
    }
    let Ok(numbers) = words.iter().map(|word| word.parse()).collect::<Result<Vec<u64>, _>>() else {
        return wrong_usage();
    };
    match (command, &numbers[..]) {
        ("", []) => compare(20_000, 1),
        ("", [count]) => compare(*count, 1),
        ("", [count, seed]) => compare(*count, *seed),
        ("--case", [seed]) => one_case(*seed, run::MOST_PLACES),
        ("--case", [seed, places]) => one_case(*seed, *places as usize),
        ("--answers", [count, seed]) => print_answers(*count, *seed, 8, 100),
        ("--answers", [count, seed, places]) => print_answers(*count, *seed, *places as usize, 100),
        ("--answers", [count, seed, places, steps]) => print_answers(*count, *seed, *places as usize, *steps),
        ("--sheet", []) => print_sheet(),
        ("--sheets", []) => compare_sheets(5_000, 1),
        ("--sheets", [count]) => compare_sheets(*count, 1),
        ("--sheets", [count, seed]) => compare_sheets(*count, *seed),
        ("--sheet-case", [seed]) => put(&sheet::case(*seed).sheet.text),
        ("--fuzz-sheets", [minutes]) => fuzz_sheets(*minutes, 1),
        ("--fuzz-sheets", [minutes, seed]) => fuzz_sheets(*minutes, *seed),
        ("--sheet-cases", []) => put(&sheet::stored::input()),
        ("--sheet-listings", []) => put(&sheet::stored::output()),
        ("--replay", [count, seed]) => print_replay(*count, *seed, 8, 100),
        ("--replay", [count, seed, places]) => print_replay(*count, *seed, *places as usize, 100),
        ("--replay", [count, seed, places, steps]) => print_replay(*count, *seed, *places as usize, *steps),
        _ => wrong_usage(),
    }
}

fn wrong_usage() -> i32 {
    eprintln!("{USAGE}");
    2
}

fn compare(count: u64, seed: u64) -> i32 {
    println!("the original in {ORIGINAL} against the model and the port: {count} calls, seed {seed}");
    let mut original = Original;
    let mut model = Model::default();
    let mut fault = false;
    for side in [&mut original as &mut dyn Side, &mut Model::default(), &mut Port::default()] {
        let wrong = catch_unwind(AssertUnwindSafe(|| cases::wrong(side)));
        fault |= !matches!(&wrong, Ok(numbers) if numbers.is_empty());
        match wrong {
            Ok(numbers) => {
                for number in numbers {
                    println!("case {number} of the twelve: the {} answers otherwise", side.name());
                }
            }
            Err(_) => println!("the twelve cases: the {} panicked", side.name()),
        }
    }
    let seen = run::run(&mut [&mut original, &mut model, &mut Port::default()], count, seed);
    println!("\nevents reached");
    model.events.print();
    println!();
    seen.print();
    println!();
    for name in model.events.missing() {
        println!("never reached: {name}");
        fault = true;
    }
    for name in seen.missing() {
        println!("never reached: {name}");
        fault = true;
    }
    println!("{} of them put to the port again, in {} lists, {} differ", seen.listed, seen.lists, seen.lists_differ);
    println!("{} calls compared, {} differ", seen.calls, seen.differ);
    (fault || seen.differ > 0 || seen.lists_differ > 0) as i32
}

fn one_case(seed: u64, places: usize) -> i32 {
    if places == 0 {
        return wrong_usage();
    }
    let case = generate::case(seed, places);
    for side in [&mut Original as &mut dyn Side, &mut Model::default(), &mut Port::default()] {
        println!("# {}", side.name());
        answers::print_case(side, &case);
    }
    0
}

fn print_answers(count: u64, seed: u64, places: usize, steps: u64) -> i32 {
    if places == 0 {
        return wrong_usage();
    }
    answers::print(&mut Original, count, seed, places, steps);
    0
}

fn print_replay(count: u64, seed: u64, places: usize, steps: u64) -> i32 {
    if places == 0 {
        return wrong_usage();
    }
    replay::print(&mut Original, count, seed, places, steps);
    0
}

/// Writes bytes to standard output.
fn put(bytes: &[u8]) -> i32 {
    match io::stdout().write_all(bytes) {
        Ok(()) => 0,
        Err(why) => {
            eprintln!("compare: standard output: {why}");
            2
        }
    }
}

/// Standard input is read to the first byte that makes a sheet too long.
fn print_sheet() -> i32 {
    let mut text = vec![];
    if let Err(why) = io::stdin().take(60_001).read_to_end(&mut text) {
        eprintln!("compare: standard input: {why}");
        return 2;
    }
    put(&sheet::program::printed(&mut Original, &text))
}

fn compare_sheets(count: u64, seed: u64) -> i32 {
    println!("the sheet program over the original in {ORIGINAL} against the port: {count} sheets, seed {seed}");
    !sheet::run::run(count, seed) as i32
}

fn fuzz_sheets(minutes: u64, seed: u64) -> i32 {
    !sheet::fuzz::run(Duration::from_secs(60 * minutes), seed) as i32
}
