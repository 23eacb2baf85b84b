//! Fuzzing: random bytes, and sheets that are cut, spliced and changed in many places. Each answer of the port must be a listing of the
//! form or one refusal line, and the original's.

use std::time::{Duration, Instant};

use super::compared::Compared;
use super::edits::{SAMPLE, SMALL};
use super::form;
use super::random::sheet;
use crate::generate::case_seed;
use crate::random::Random;

/// How much a sheet may ask for: its steps times the square of its places, at most.
const MOST_WORK: u64 = 4_000_000;

/// Puts texts to both sides for so long; whether all agree.
pub fn run(time: Duration, seed: u64) -> bool {
    let began = Instant::now();
    let mut compared = Compared::new(seed, false);
    let mut left_out = 0u64;
    let mut index = 0;
    while began.elapsed() < time {
        let number = case_seed(seed, index);
        index += 1;
        let text = text(&mut Random::new(number));
        if work(&text) > MOST_WORK {
            left_out += 1;
            continue;
        }
        compared.ask(&text, None, &|| format!("text {number}"));
    }
    compared.print_refused();
    println!("{left_out} left out: their steps would take too long");
    println!(
        "{} texts of seed {seed} in {:.0} s, {} differ",
        compared.sheets,
        began.elapsed().as_secs_f64(),
        compared.differ
    );
    compared.differ == 0
}

/// A text: bytes, tokens, or a sheet that was changed.
fn text(r: &mut Random) -> Vec<u8> {
    match r.below(20) {
        0 => (0..r.below(300)).map(|_| r.word() as u8).collect(),
        1 => (0..r.below(300)).map(|_| r.pick(b"0123456789- \n")).collect(),
        2 => {
            let words =
                ["vehicle", "places", "distances", "times", "break", "draws", "routes", "run", "0", "1", "2", "3", "-"];
            (0..r.below(100))
                .map(|_| r.pick(&words).to_string() + r.pick(&[" ", "\n"]))
                .collect::<String>()
                .into_bytes()
        }
        3 | 4 => {
            let mut text = base(r);
            text.truncate(r.below(text.len() + 1));
            text
        }
        5..=7 => {
            // the front of one, the end of another
            let (one, other) = (base(r), base(r));
            let (to, from) = (r.below(one.len() + 1), r.below(other.len() + 1));
            [&one[..to], &other[from..]].concat()
        }
        8..=10 => {
            // the same, at the starts of lines
            let (one, other) = (base(r), base(r));
            let to = line(&one, r);
            let from = line(&other, r);
            [&one[..to], &other[from..]].concat()
        }
        11 | 12 => {
            // a part of one in the other
            let (mut one, other) = (base(r), base(r));
            let from = r.below(other.len());
            let part = other[from..(from + r.below(30)).min(other.len())].to_vec();
            let at = r.below(one.len() + 1);
            let end = (at + r.below(30)).min(one.len());
            one.splice(at..end, part);
            one
        }
        13..=15 => {
            // other digits: the form stays
            let mut text = base(r);
            for _ in 0..r.between(1, 6) {
                let at = r.below(text.len());
                if text[at].is_ascii_digit() {
                    text[at] = b'0' + r.below(10) as u8;
                }
            }
            text
        }
        _ => {
            let mut text = base(r);
            let telling = r.chance(70);
            for _ in 0..r.between(1, 6) {
                let at = r.below(text.len());
                let byte = if telling { r.pick(b"0123456789- \n") } else { r.word() as u8 };
                match r.below(4) {
                    0 => text.insert(at, byte),
                    1 if text.len() > 1 => {
                        text.remove(at);
                    }
                    2 => {
                        let other = r.below(text.len());
                        text.swap(at, other);
                    }
                    _ => text[at] = byte,
                }
            }
            text
        }
    }
}

fn base(r: &mut Random) -> Vec<u8> {
    match r.below(6) {
        0 => SAMPLE.to_vec(),
        1 => SMALL.to_vec(),
        _ => sheet(r.word()).join(),
    }
}

/// The start of a line.
fn line(text: &[u8], r: &mut Random) -> usize {
    let starts: Vec<usize> = (0..text.len()).filter(|&i| i == 0 || text[i - 1] == b'\n').collect();
    r.pick(&starts)
}

/// The most steps that a sheet can take, times the square of its places; 0 where it is refused by its form.
fn work(text: &[u8]) -> u64 {
    let Ok(sheet) = form::read(text) else {
        return 0;
    };
    let routes = sheet.plan.lengths.iter().filter(|&&length| length > 0).count() as u64;
    let places = sheet.problem.places as u64;
    sheet.clock.min(sheet.limit * routes * routes) * places * places
}
