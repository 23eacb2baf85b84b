//! Sheets with one fault, or several rows of the table at once, and the number that each must be refused with.

use super::random::large;
use super::text::{Lines, Part, Token, SECTIONS};
use crate::random::Random;

/// What is made of a sheet: its bytes, and the number that it must be refused with, 0 for none, where that is plain.
pub struct Damaged {
    pub text: Vec<u8>,
    pub planned: Option<u8>,
}

type Damage = fn(&mut Lines, &mut Random) -> Option<Damaged>;

/// Every kind of damage, with its words. One that a sheet has no place for makes nothing.
pub const KINDS: &[(&str, Damage)] = &[
    ("row 2: a demand out of range", |s, r| row(2, demand(s, r), s)),
    ("row 3: ready after due", |s, r| row(3, window(s, r), s)),
    ("row 6: a stop that is no place", |s, r| row(6, stop(s, r, Wrong::NoPlace), s)),
    ("row 6: a stop that is a place but for its upper bits", |s, r| row(6, stop(s, r, Wrong::UpperBits), s)),
    ("row 6: the depot as a stop", |s, r| row(6, stop(s, r, Wrong::Depot), s)),
    ("row 6: a stop twice", |s, r| row(6, stop(s, r, Wrong::Twice), s)),
    ("row 7: no draws", |s, _| row(7, no_draws(s), s)),
    ("row 8: a step limit over 65,535", |s, r| row(8, limit(s, r), s)),
    ("several of rows 2 to 8", several),
    ("60,000 bytes of the form", |_, r| stretched(r, 60_000, 0)),
    ("row 10: 60,001 bytes of the form", |_, r| stretched(r, 60_001, 10)),
    ("row 10: 60,001 bytes or more of anything", |_, r| {
        let length = 60_001 + r.below(3) * r.below(5_000);
        made((0..length).map(|_| r.word() as u8).collect(), 10)
    }),
    ("row 11: 60,000 bytes, the last of them too many", |_, r| {
        let mut damaged = stretched(r, 59_999, 11)?;
        damaged.text.push(b'\n');
        Some(damaged)
    }),
    ("row 12: no places", |s, _| counted(s, "places", "0", 12)),
    ("row 12: over 64 places", |s, r| {
        let count = over(64, r);
        counted(s, "places", &count, 12)
    }),
    ("row 12: over 64 routes", |s, r| {
        let count = over(64, r);
        counted(s, "routes", &count, 12)
    }),
    ("row 12: over 1,024 draws", |s, r| {
        let count = over(1_024, r);
        counted(s, "draws", &count, 12)
    }),
    ("row 12: over 64 stops", |s, r| {
        let lengths = s.places(|part| part == Part::Length);
        let (i, j) = lengths.get(r.below(lengths.len().max(1))).copied()?;
        *s.at(i, j) = over(64, r);
        made(s.join(), 12)
    }),
    ("row 6: 64 stops, so one of them twice", |_, r| with_more_stops(r, 1, 6)),
    ("row 12: 65 stops, in routes of a few", |_, r| with_more_stops(r, 2, 12)),
    ("row 12: a length over its limit ends the text, or a space or line end is behind it", |s, r| {
        let lengths = s.places(|part| part == Part::Length);
        let (line, _) = lengths.get(r.below(lengths.len().max(1))).copied()?;
        *s.at(line, 0) = over(64, r);
        s.lines[line].truncate(1);
        s.lines.truncate(line + 1);
        let mut text = s.join();
        text.pop();
        text.extend_from_slice(r.pick(&["", " ", "\n"]).as_bytes());
        made(text, 12)
    }),
    ("row 12: a count over its limit ends the text, or a space is behind it", |s, r| {
        let section = r.pick(&["places", "draws", "routes"]);
        let count = over(1_024, r);
        *s.count(section) = count;
        let end = s.begin(section) + 1;
        s.lines.truncate(end);
        let mut text = s.join();
        text.pop();
        if r.chance(50) {
            text.push(b' ');
        }
        made(text, 12)
    }),
    ("row 11: a count over its limit is no number", |s, r| {
        let section = r.pick(&["places", "draws", "routes"]);
        let more = r.pick(&["x", "\r", "\t", "\0", "-", "."]);
        *s.count(section) = over(1_024, r) + more;
        made(s.join(), 11)
    }),
    ("row 11: another count of vehicle, distances, times, break or run", |s, r| {
        let section = r.pick(&["vehicle", "distances", "times", "break", "run"]);
        let right: u64 = s.count("places").parse().unwrap();
        let most = if matches!(section, "distances" | "times") { right } else { 1 };
        let none = matches!(section, "times" | "break");
        let wrong = r.pick(&[0, 1, 2, most + 1, most - 1, 64, 65, 100, 999_999_999]);
        if wrong == most || none && wrong == 0 {
            return None;
        }
        counted(s, section, &wrong.to_string(), 11)
    }),
    ("row 11: times or break announced and not there, or there and not announced", |s, r| {
        let section = r.pick(&["times", "break"]);
        let places = s.count("places").clone();
        let there = s.end(section) > s.begin(section) + 1;
        let one = if section == "times" { &places } else { "1" };
        counted(s, section, if there { "0" } else { one }, 11)
    }),
    ("row 11: a count one too large or too small", |s, r| {
        let section = r.pick(&["places", "draws", "routes"]);
        let most = if section == "draws" { 1_024 } else { 64 };
        let count: u64 = s.count(section).parse().unwrap();
        let wrong = if r.chance(50) { count + 1 } else { count.checked_sub(1)? };
        let refused = wrong > most || section == "places" && wrong == 0;
        counted(s, section, &wrong.to_string(), if refused { 12 } else { 11 })
    }),
    ("row 11: a section's name misspelled", |s, r| {
        let line = s.begin(r.pick(&SECTIONS));
        let name = s.at(line, 0);
        match r.below(4) {
            0 => *name = name.to_uppercase(),
            1 => name.truncate(name.len() - 1),
            2 => name.push('s'),
            _ => name.insert(0, '-'),
        }
        made(s.join(), 11)
    }),
    ("row 11: a section left out", |s, r| {
        let section = r.pick(&SECTIONS);
        let lines = s.begin(section)..s.end(section);
        s.lines.drain(lines);
        made(s.join(), 11)
    }),
    ("row 11: a section twice", |s, r| {
        let section = r.pick(&SECTIONS);
        let lines = s.lines[s.begin(section)..s.end(section)].to_vec();
        let at = s.end(section);
        s.lines.splice(at..at, lines);
        made(s.join(), 11)
    }),
    ("row 11: two sections exchanged", |s, r| {
        let first = r.below(SECTIONS.len() - 1);
        let (begin, end) = (s.begin(SECTIONS[first]), s.end(SECTIONS[first + 1]));
        let middle = s.begin(SECTIONS[first + 1]) - begin;
        s.lines[begin..end].rotate_left(middle);
        made(s.join(), 11)
    }),
    ("row 11: a line left out", |s, r| {
        s.lines.remove(r.below(s.lines.len()));
        made(s.join(), 11)
    }),
    ("row 11: a line twice", |s, r| {
        let line = r.below(s.lines.len());
        let twice = s.lines[line].clone();
        // a route's line more may be over 64 stops
        let planned = if twice[0].part == Part::Length { None } else { Some(11) };
        s.lines.insert(line, twice);
        Some(Damaged { text: s.join(), planned })
    }),
    ("row 11: a token left out", |s, r| {
        let (i, j) = any(s, r, |_| true)?;
        // without its length a route's line begins with another
        let planned = if s.lines[i][0].part == Part::Length { None } else { Some(11) };
        s.lines[i].remove(j);
        Some(Damaged { text: s.join(), planned })
    }),
    ("row 11: a token too many", |s, r| {
        let (i, j) = any(s, r, |_| true)?;
        let planned = if s.lines[i][0].part == Part::Length { None } else { Some(11) };
        let more = Token { text: r.between(1, 2).to_string(), part: Part::Number };
        s.lines[i].insert(j + r.below(2), more);
        Some(Damaged { text: s.join(), planned })
    }),
    ("row 11: two spaces, or a space at a line's start or end", |s, r| {
        let (i, j) = any(s, r, |_| true)?;
        let at = if r.chance(50) { 0 } else { s.at(i, j).len() };
        s.at(i, j).insert(at, ' ');
        made(s.join(), 11)
    }),
    ("row 11: a blank line", |s, r| {
        s.lines.insert(r.below(s.lines.len() + 1), vec![]);
        made(s.join(), 11)
    }),
    ("row 11: CR before LF", |s, r| {
        let line = r.below(s.lines.len());
        let last = s.lines[line].len() - 1;
        s.at(line, last).push('\r');
        made(s.join(), 11)
    }),
    ("row 11: CR before every LF", |s, _| {
        let lines = s.lines.len();
        for line in 0..lines {
            let last = s.lines[line].len() - 1;
            s.at(line, last).push('\r');
        }
        made(s.join(), 11)
    }),
    ("row 11: a tab for a space", |s, r| {
        let mut text = s.join();
        let spaces: Vec<usize> = (0..text.len()).filter(|&i| text[i] == b' ').collect();
        text[r.pick(&spaces)] = b'\t';
        made(text, 11)
    }),
    ("row 11: a line end for a space, or a space for a line end", |s, r| {
        let mut text = s.join();
        let ends: Vec<usize> = (0..text.len()).filter(|&i| matches!(text[i], b' ' | b'\n')).collect();
        let at = r.pick(&ends);
        text[at] = if text[at] == b' ' { b'\n' } else { b' ' };
        Some(Damaged { text, planned: None })
    }),
    ("row 11: a byte that no sheet has", |s, r| {
        let mut text = s.join();
        let byte = loop {
            let byte = r.word() as u8;
            if !byte.is_ascii_digit() && !byte.is_ascii_lowercase() && !b" \n-".contains(&byte) {
                break byte;
            }
        };
        text.insert(r.below(text.len() + 1), byte);
        made(text, 11)
    }),
    ("row 11: the last line without its end", |s, _| {
        let mut text = s.join();
        text.pop();
        made(text, 11)
    }),
    ("row 11: something after the last line", |s, r| {
        let mut text = s.join();
        text.extend_from_slice(r.pick(&["\n", " ", "0\n", "run 1\n5 5\n", "\0", "-", "\r\n"]).as_bytes());
        made(text, 11)
    }),
    ("row 11: no bytes", |_, _| made(vec![], 11)),
    ("row 11: the end cut off", |s, r| {
        let mut text = s.join();
        text.truncate(r.below(text.len()));
        // `places 03` may be cut to `places 0`
        let none =
            text.ends_with(b"0") && text.split(|&byte| byte == b'\n').next_back().unwrap().starts_with(b"places 0");
        let planned = if none { None } else { Some(11) };
        Some(Damaged { text, planned })
    }),
    ("row 11: ten digits", |s, r| {
        let (i, j) = any(s, r, |part| part != Part::Name)?;
        let token = s.at(i, j);
        if token == "-" {
            *token = "0".to_string();
        }
        let sign = token.starts_with('-') as usize;
        let more = if r.chance(70) { "0" } else { "1" };
        while token.len() < sign + 10 {
            token.insert_str(sign, more);
        }
        made(s.join(), 11)
    }),
    ("row 11: a minus sign where none may be", |s, r| {
        let (i, j) = any(s, r, |part| part != Part::Signed)?;
        let more = if s.at(i, j) == "-" { "-1" } else { "-" };
        s.at(i, j).insert_str(0, more);
        made(s.join(), 11)
    }),
    ("row 11: two minus signs, or one behind the digits", |s, r| {
        let (i, j) = any(s, r, |part| part == Part::Signed)?;
        let token = s.at(i, j);
        if r.chance(50) {
            token.insert_str(0, "--");
        } else {
            token.push('-');
        }
        made(s.join(), 11)
    }),
    ("row 11: a lone minus where none may be", |s, r| {
        let (i, j) = any(s, r, |part| part != Part::Optional)?;
        *s.at(i, j) = "-".to_string();
        made(s.join(), 11)
    }),
    ("row 11: one of READY and DUE", |s, r| {
        let line = s.begin("places") + 1 + r.below(s.end("places") - s.begin("places") - 1);
        let token = s.at(line, 2 + r.below(2));
        *token = if token == "-" { r.below(1_000).to_string() } else { "-".to_string() };
        made(s.join(), 11)
    }),
    ("row 11: a depot other than place 0", |s, r| {
        let line = s.begin("vehicle") + 1;
        *s.at(line, 1) = r.pick(&["1", "2", "63", "256", "65536", "999999999", "000000001"]).to_string();
        made(s.join(), 11)
    }),
    ("row 11: a plus sign, a point, a letter or another base", |s, r| {
        let (i, j) = any(s, r, |part| part != Part::Name)?;
        let token = s.at(i, j);
        match r.below(5) {
            0 => token.insert(0, '+'),
            1 => token.push_str(".0"),
            2 => token.push('x'),
            3 => token.insert_str(0, "0x"),
            _ => token.push_str("e0"),
        }
        made(s.join(), 11)
    }),
    ("row 12 before 11, or 11 before 12", |s, r| {
        // a count over its limit, and a fault of form before or behind it
        let section = r.pick(&["places", "draws", "routes"]);
        *s.count(section) = over(1_024, r);
        let at = s.begin(section);
        let line = r.below(s.lines.len());
        if line == at {
            return None;
        }
        s.at(line, 0).push('x');
        made(s.join(), if line < at { 11 } else { 12 })
    }),
    ("any bytes changed", |s, r| {
        let mut text = s.join();
        for _ in 0..r.between(1, 3) {
            let at = r.below(text.len());
            match r.below(3) {
                0 => text[at] = r.pick(b"0123456789- \n"),
                1 => text.insert(at, r.pick(b"0123456789- \n")),
                _ => {
                    text.remove(at);
                }
            }
        }
        Some(Damaged { text, planned: None })
    }),
];

fn made(text: Vec<u8>, planned: u8) -> Option<Damaged> {
    Some(Damaged { text, planned: Some(planned) })
}

fn row(number: u8, done: Option<()>, sheet: &Lines) -> Option<Damaged> {
    done?;
    made(sheet.join(), number)
}

fn counted(sheet: &mut Lines, section: &str, count: &str, planned: u8) -> Option<Damaged> {
    *sheet.count(section) = count.to_string();
    made(sheet.join(), planned)
}

/// A large sheet with as many bytes as are asked for.
fn stretched(r: &mut Random, bytes: usize, planned: u8) -> Option<Damaged> {
    let mut sheet = large(r);
    sheet.stretch(bytes).then(|| made(sheet.join(), planned))?
}

/// A sheet of 63 stops with some of them once more.
fn with_more_stops(r: &mut Random, more: usize, planned: u8) -> Option<Damaged> {
    let mut sheet = large(r);
    for _ in 0..more {
        let (line, _) = r.pick(&sheet.places(|part| part == Part::Length));
        let again = sheet.lines[line][1].clone();
        sheet.lines[line].push(again);
        *sheet.at(line, 0) = (sheet.lines[line].len() - 1).to_string();
    }
    made(sheet.join(), planned)
}

/// A count over a limit.
fn over(limit: u64, r: &mut Random) -> String {
    r.pick(&[limit + 1, limit + 2, 65_536, 65_536 + limit / 2, 999_999_999]).to_string()
}

/// A token whose part passes a test.
fn any(sheet: &Lines, r: &mut Random, test: fn(Part) -> bool) -> Option<(usize, usize)> {
    let places = sheet.places(test);
    places.get(r.below(places.len().max(1))).copied()
}

fn demand(sheet: &mut Lines, r: &mut Random) -> Option<()> {
    let line = sheet.begin("places") + 1 + r.below(sheet.end("places") - sheet.begin("places") - 1);
    let far = r.pick(&["1000001", "-1000001", "999999999", "-999999999", "2000000"]);
    *sheet.at(line, 0) = far.to_string();
    Some(())
}

fn window(sheet: &mut Lines, r: &mut Random) -> Option<()> {
    let line = sheet.begin("places") + 1 + r.below(sheet.end("places") - sheet.begin("places") - 1);
    let due = r.pick(&[0, 5, 999_999_998]);
    *sheet.at(line, 2) = (due + 1).to_string();
    *sheet.at(line, 3) = due.to_string();
    Some(())
}

enum Wrong {
    NoPlace,
    UpperBits,
    Depot,
    Twice,
}

fn stop(sheet: &mut Lines, r: &mut Random, wrong: Wrong) -> Option<()> {
    let stops = sheet.places(|part| part == Part::Stop);
    let (i, j) = stops.get(r.below(stops.len().max(1))).copied()?;
    let n: u64 = sheet.count("places").parse().unwrap();
    let old: u64 = sheet.at(i, j).parse().unwrap();
    *sheet.at(i, j) = match wrong {
        Wrong::NoPlace => r.pick(&[n, n + 1, 64, 65_535, 999_999_999]).to_string(),
        Wrong::UpperBits => (old + r.pick(&[256, 65_536, 131_072, 65_536 * 1_024])).to_string(),
        Wrong::Depot => "0".to_string(),
        Wrong::Twice => {
            let (other, k) = r.pick(&stops);
            if (other, k) == (i, j) {
                return None;
            }
            sheet.at(other, k).clone()
        }
    };
    Some(())
}

fn no_draws(sheet: &mut Lines) -> Option<()> {
    let lines = sheet.begin("draws") + 1..sheet.end("draws");
    sheet.lines.drain(lines);
    *sheet.count("draws") = "0".to_string();
    Some(())
}

fn limit(sheet: &mut Lines, r: &mut Random) -> Option<()> {
    let line = sheet.begin("run") + 1;
    *sheet.at(line, 0) = r.pick(&["65536", "65537", "131072", "999999999"]).to_string();
    Some(())
}

fn several(sheet: &mut Lines, r: &mut Random) -> Option<Damaged> {
    let mut rows = vec![];
    if r.chance(50) {
        demand(sheet, r)?;
        rows.push(2);
    }
    if r.chance(50) {
        window(sheet, r)?;
        rows.push(3);
    }
    if r.chance(50) {
        stop(sheet, r, Wrong::Depot)?;
        rows.push(6);
    }
    if r.chance(50) {
        no_draws(sheet)?;
        rows.push(7);
    }
    if r.chance(50) {
        limit(sheet, r)?;
        rows.push(8);
    }
    made(sheet.join(), rows.into_iter().min()?)
}
