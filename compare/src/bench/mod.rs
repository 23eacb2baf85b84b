//! The benchmarks: the same work done by the original and by the port, in instructions and in time.
//!
//! Of minimise and eliminate the call alone is measured, on data in each side's own form that is made ready before. Of a question, which the
//! port refuses by the table whatever it is given, the original's side is the table's checks and then its function; its function alone is
//! measured too. A sheet goes from bytes to bytes on both sides. What is measured must give the same answer, and the same plan, on every
//! side, bit for bit, and in the model.

mod clock;
mod days;
mod list;
mod tables;
mod valgrind;

use std::hint::black_box;
use std::time::{Duration, Instant};

use crate::checks::refusal;
use crate::events::{Event, Events};
use crate::model::Model;
use crate::original::{self, Original};
use crate::port;
use crate::ported;
use crate::problem::{Answer, Call, Plan, Problem, Side};
use crate::sheet::ported::ROOM;
use crate::sheet::program::{printed, printed_at_once};
use list::{asked, bench, names, Bench, Work};

/// How often a call that is repeated is made to be counted, and to be timed.
const COUNTED: u64 = 20;
const TIMED: u64 = 1000;

/// The sides that are measured, in the order of the tables: the ratio is that of the last to the one before it.
const TWO: &[&str] = &["original", "port"];
const THREE: &[&str] = &["original", "checked", "port"];

/// What one benchmark came to, side by side.
struct Figures {
    bench: Bench,
    /// What was done, in words.
    did: String,
    /// What a call answered.
    answer: Option<Answer>,
    /// Of one call; none where valgrind is not there.
    instructions: Option<Vec<u64>>,
    /// The processor time of one call, the shortest.
    seconds: Vec<f64>,
}

/// Measures the benchmarks that the words name, or all, and prints the tables. The exit status: 1 where the sides differ, 2 where a word
/// names none.
pub fn run(words: &[String]) -> i32 {
    let mut chosen: Vec<&str> = words.iter().flat_map(|word| asked(word)).collect();
    if words.is_empty() {
        chosen = names().collect();
    } else if let Some(word) = words.iter().find(|word| asked(word).is_empty()) {
        eprintln!("compare: there is no benchmark '{word}'; there are: {}", names().collect::<Vec<_>>().join(" "));
        return 2;
    }
    let counts = valgrind::there();
    if !counts {
        println!("valgrind is not there: times only, no instructions.\n");
    }
    let mut all: Vec<Figures> = vec![];
    for name in chosen {
        let bench = bench(name).expect("a name of the list");
        match measured(bench, counts) {
            Ok(figures) => {
                tables::row(&figures, all.last());
                all.push(figures);
            }
            Err(why) => {
                println!("\n{name}: {why}");
                return 1;
            }
        }
    }
    tables::growth(&all);
    tables::done(&all);
    0
}

/// Does the work of one benchmark on one side and prints what it gave: what callgrind runs.
pub fn once(side: &str, name: &str) -> i32 {
    match bench(name) {
        Some(bench) if sides(&bench).contains(&side) => {
            println!("{}", made(&bench, side, times(&bench, COUNTED)).1);
            0
        }
        _ => 2,
    }
}

/// What callgrind counts: the calls that are made in here, and nothing else. It is found by this name.
#[no_mangle]
#[inline(never)]
fn bench_region(times: u64, make: &mut dyn FnMut()) {
    for _ in 0..times {
        make();
    }
    black_box(times);
}

fn sides(bench: &Bench) -> &'static [&'static str] {
    match &bench.work {
        Work::Call { call, .. } if !call.has_plan() => THREE,
        _ => TWO,
    }
}

fn times(bench: &Bench, repeated: u64) -> u64 {
    if bench.repeated {
        repeated
    } else {
        1
    }
}

/// Does the work of a benchmark on one side: how long all times took, and what was given last, as text.
fn made(bench: &Bench, side: &str, times: u64) -> (Duration, String) {
    match (&bench.work, side) {
        (Work::Call { problem, plan, call }, "port") => {
            let mut ready = ported::Ready::new(problem, plan, call);
            let mut number = 0;
            let took = timed(times, &mut || number = black_box(&mut ready).make());
            let answer = if number == 0 { ready.answer() } else { Answer::Refused(number) };
            (took, line(&answer, &ready.plan))
        }
        (Work::Call { problem, plan, call }, _) => {
            let mut ready = original::Ready::new(problem, plan, call);
            let mut answer = Answer::Panicked;
            let took = if side == "checked" {
                timed(times, &mut || answer = checked(black_box((problem, plan, call)), black_box(&mut ready)))
            } else {
                timed(times, &mut || answer = black_box(&mut ready).make())
            };
            let mut left = plan.clone();
            left.write(&ready.routes);
            (took, line(&answer, &left))
        }
        (Work::Sheet(text), "port") => {
            let (mut out, mut written, mut number) = ([0; ROOM], [0], 0);
            let took = timed(times, &mut || number = port::plan_sheet(&mut out, &mut written, black_box(text)));
            let bytes = if number == 0 { &out[..written[0] as usize] } else { b"" };
            (took, shown(bytes))
        }
        (Work::Sheet(text), _) => {
            let mut bytes = vec![];
            let took = timed(times, &mut || bytes = printed_at_once(black_box(text)));
            (took, shown(&bytes))
        }
    }
}

/// The original's function behind the table's checks.
fn checked((problem, plan, call): (&Problem, &Plan, &Call), ready: &mut original::Ready) -> Answer {
    match refusal(problem, plan, call) {
        Some(number) => Answer::Refused(number),
        None => ready.make(),
    }
}

fn timed(times: u64, make: &mut dyn FnMut()) -> Duration {
    let began = clock::spent();
    bench_region(times, make);
    clock::spent() - began
}

/// Equal lines are equal answers and plans.
fn line(answer: &Answer, plan: &Plan) -> String {
    format!("{} {:?} {:?}", answer.line(), plan.lengths, plan.stops)
}

/// What is printed for a sheet.
fn shown(bytes: &[u8]) -> String {
    String::from_utf8_lossy(bytes).trim_end().to_string()
}

/// Whether every route that a call is given fits and passes the original's check.
fn begins_well(problem: &Problem, plan: &Plan) -> bool {
    plan.routes().iter().all(|route| {
        let load: i32 = route.iter().map(|&stop| problem.demand[stop]).sum();
        let call = Call::RouteFeasible { route: route.iter().map(|&stop| stop as u16).collect() };
        let answer = Original.call(problem, &mut Plan::of(&[]), &call);
        load <= problem.vehicle.capacity && matches!(answer, Answer::Feasible(true))
    })
}

/// What every side must give, which is what the model gives; what was done, in words; the answer of a call.
fn right(work: &Work) -> Result<(String, String, Option<Answer>), String> {
    let mut model = Model::default();
    match work {
        Work::Call { problem, plan, call } => {
            if !begins_well(problem, plan) {
                return Err("a route of the first plan is not allowed".to_string());
            }
            let mut left = plan.clone();
            let answer = model.call(problem, &mut left, call);
            Ok((line(&answer, &left), did(plan.lengths.len(), &answer, &model.events), Some(answer)))
        }
        Work::Sheet(text) => {
            let listing = shown(&printed(&mut model, text));
            let last = listing.lines().last().unwrap_or_default().to_string();
            Ok((listing, last, None))
        }
    }
}

/// Measures one benchmark: the times of all sides by turns, then the instructions. Or what differs from the model's answer.
fn measured(bench: Bench, counts: bool) -> Result<Figures, String> {
    let (right, did, answer) = right(&bench.work)?;
    let same = |side: &str, said: &str| {
        if said == right {
            Ok(())
        } else {
            Err(format!("the side '{side}' answers\n{said}\nand the model\n{right}"))
        }
    };
    let sides = sides(&bench);
    let mut seconds = vec![f64::INFINITY; sides.len()];
    let began = Instant::now();
    let (mut turns, often) = (0, times(&bench, TIMED));
    while turns < 5 || turns < 100 && began.elapsed() < Duration::from_secs(1) {
        for (side, best) in sides.iter().zip(&mut seconds) {
            let (took, said) = made(&bench, side, often);
            same(side, &said)?;
            *best = best.min(took.as_secs_f64() / often as f64);
        }
        turns += 1;
    }
    let mut instructions = None;
    if counts {
        let mut each = vec![];
        for side in sides {
            let (collected, said) = valgrind::count(side, bench.name)?;
            same(side, &said)?;
            each.push(collected / times(&bench, COUNTED));
        }
        instructions = Some(each);
    }
    Ok(Figures { did, bench, answer, instructions, seconds })
}

/// What a call did with so many routes given, in words.
fn did(given: usize, answer: &Answer, events: &Events) -> String {
    let count = |event| events.count(event);
    match answer {
        Answer::Minimised { routes, steps, draws } => format!(
            "{given} routes to {routes}, {steps} steps, {draws} draws; attempts: {} accepted, {} stopped by M, {} without an ejection; \
             {} insertions, {} single and {} double ejections; {} exchanges and {} tail swaps stand",
            count(Event::Accepted),
            count(Event::StoppedByLimit),
            count(Event::NoEjection),
            count(Event::Inserted),
            count(Event::Single),
            count(Event::Double),
            count(Event::Exchange),
            count(Event::TailSwap),
        ),
        Answer::Eliminated { routes } => format!(
            "{given} routes to {routes}; attempts: {} accepted, {} cut by what is saved, {} with no place for a stop",
            count(Event::EliminatedHard) + count(Event::EliminatedSoft),
            count(Event::Cut),
            count(Event::NoPlace),
        ),
        _ => answer.line(),
    }
}
