//! The tables of the benchmarks, in Markdown: the figures of docs/BENCHMARKS.md as they stand there.

use super::list::Work;
use super::Figures;
use crate::problem::{Answer, Call};

/// The heading of the table that a benchmark stands in.
fn heading(figures: &Figures) -> &'static str {
    match &figures.bench.work {
        Work::Call { call, .. } if call.has_plan() => "Minimise and eliminate",
        Work::Call { .. } => "Questions",
        Work::Sheet(_) => "A sheet, from bytes to bytes",
    }
}

/// The row of a benchmark, with the head of its table where the one before stands in another.
pub fn row(figures: &Figures, before: Option<&Figures>) {
    let Figures { bench, instructions, seconds, .. } = figures;
    let sides = if seconds.len() == 3 { "original alone | with checks | port" } else { "original | port" };
    if before.map(heading) != Some(heading(figures)) {
        println!("{}### {}\n", if before.is_some() { "\n" } else { "" }, heading(figures));
        println!("| benchmark | call | instructions, {sides} | ratio | time, {sides} | ratio |");
        println!("|---|---|{}", "--:|".repeat(2 * seconds.len() + 2));
    }
    let counted = match instructions {
        Some(counts) => counted(counts),
        None => vec!["-"; seconds.len() + 1].join(" | "),
    };
    let spans: Vec<String> = seconds.iter().map(|&seconds| span(seconds)).collect();
    let timed = format!("{} | {}", spans.join(" | "), digits(last_to_other(seconds)));
    println!("| {} | {} | {counted} | {timed} |", bench.name, bench.about);
}

/// Instructions side by side, and their ratio.
fn counted(counts: &[u64]) -> String {
    let floats: Vec<f64> = counts.iter().map(|&count| count as f64).collect();
    let counts: Vec<String> = counts.iter().map(|&count| grouped(count)).collect();
    format!("{} | {}", counts.join(" | "), digits(last_to_other(&floats)))
}

/// The ratio of the last, which is the port's, to the one before it.
fn last_to_other(values: &[f64]) -> f64 {
    values[values.len() - 1] / values[values.len() - 2]
}

/// How instructions grow with the size of the call: minimise with windows by stops, routes and M, eliminate by stops.
pub fn growth(all: &[Figures]) {
    let (mut minimised, mut eliminated) = (vec![], vec![]);
    for figures in all.iter().filter(|figures| figures.bench.grows) {
        let (Work::Call { plan, call, .. }, Some(counts)) = (&figures.bench.work, &figures.instructions) else {
            return;
        };
        let (stops, routes) = (plan.stops.len(), plan.lengths.len());
        let instructions = counted(counts);
        match (call, &figures.answer) {
            (Call::Minimise { limit, .. }, Some(Answer::Minimised { steps, .. })) => {
                let each: Vec<String> = counts.iter().map(|count| grouped(count / steps)).collect();
                let rest = format!("{} | {instructions} | {}", grouped(*steps), each.join(" | "));
                minimised.push((stops, routes, *limit, rest));
            }
            (_, Some(Answer::Eliminated { routes: left })) => {
                eliminated.push((stops, format!("{left} | {instructions}")))
            }
            _ => {}
        }
    }
    if minimised.len() > 1 {
        minimised.sort();
        println!("\n### Growth of minimise with windows\n");
        println!("| stops | routes | M | steps | instructions, original | port | ratio | a step, original | port |");
        println!("|--:|--:|--:|--:|--:|--:|--:|--:|--:|");
        for (stops, routes, limit, rest) in minimised {
            println!("| {stops} | {routes} | {limit} | {rest} |");
        }
    }
    if eliminated.len() > 1 {
        eliminated.sort();
        println!("\n### Growth of eliminate with hard windows\n");
        println!("| stops, each a route | routes left | instructions, original | port | ratio |");
        println!("|--:|--:|--:|--:|--:|");
        for (stops, rest) in eliminated {
            println!("| {stops} | {rest} |");
        }
    }
}

/// What the work that changes a plan did.
pub fn done(all: &[Figures]) {
    let changes = |figures: &&Figures| !matches!(&figures.bench.work, Work::Call { call, .. } if !call.has_plan());
    if all.iter().any(|figures| changes(&figures)) {
        println!("\n### What was done\n");
    }
    for figures in all.iter().filter(changes) {
        println!("- {}: {}.", figures.bench.name, figures.did);
    }
}

/// A ratio with three digits, or all before the point.
fn digits(ratio: f64) -> String {
    if ratio < 10.0 {
        format!("{ratio:.2}")
    } else if ratio < 100.0 {
        format!("{ratio:.1}")
    } else {
        grouped(ratio.round() as u64)
    }
}

/// A number with a comma before every three digits.
fn grouped(number: u64) -> String {
    let digits = number.to_string();
    let mut out = String::new();
    for (i, digit) in digits.chars().enumerate() {
        if i > 0 && (digits.len() - i).is_multiple_of(3) {
            out.push(',');
        }
        out.push(digit);
    }
    out
}

/// A time of three digits or more, with its unit.
fn span(seconds: f64) -> String {
    let (value, unit) = if seconds >= 1e-3 {
        (seconds * 1e3, "ms")
    } else if seconds >= 1e-6 {
        (seconds * 1e6, "µs")
    } else {
        (seconds * 1e9, "ns")
    };
    let places = if value >= 100.0 { 0 } else { 1 };
    format!("{value:.places$} {unit}")
}
