//! A sheet as lines of tokens, each with the part that it has in the form: what is damaged before it is joined to bytes.

use crate::problem::{Call, Plan, Problem};
use crate::random::Random;

/// What a token is in the form.
#[derive(Clone, Copy, PartialEq)]
pub enum Part {
    Name,
    Count,
    /// Demand and capacity, which may have a minus sign.
    Signed,
    /// READY, DUE, PENALTY and the vehicle's limits, which may be a lone minus.
    Optional,
    Number,
    Length,
    Stop,
}

#[derive(Clone)]
pub struct Token {
    pub text: String,
    pub part: Part,
}

#[derive(Clone)]
pub struct Lines {
    pub lines: Vec<Vec<Token>>,
}

/// The sections in their order.
pub const SECTIONS: [&str; 8] = ["vehicle", "places", "distances", "times", "break", "draws", "routes", "run"];

impl Lines {
    /// The sheet of a problem of whole numbers, a plan and a minimise call.
    pub fn of(problem: &Problem, plan: &Plan, call: &Call) -> Lines {
        let Call::Minimise { limit, tape, clock, .. } = call else {
            panic!("a sheet runs minimise");
        };
        let n = problem.places;
        let v = &problem.vehicle;
        let mut lines = Lines { lines: vec![] };
        lines.heading("vehicle", 1);
        lines.push(vec![
            signed(v.capacity),
            number(v.depot as f64),
            number(v.fixed_cost),
            number(v.cost_per_distance),
            optional(v.max_distance),
            optional(v.max_duration),
        ]);
        lines.heading("places", n);
        for i in 0..n {
            let window = problem.window(i);
            lines.push(vec![
                signed(problem.demand[i]),
                number(problem.service[i]),
                optional(window.map(|window| window.0)),
                optional(window.map(|window| window.1)),
                optional(problem.penalty(i)),
            ]);
        }
        lines.heading("distances", n);
        lines.square(n, &problem.distances);
        lines.heading("times", if problem.times.is_empty() { 0 } else { n });
        lines.square(n, &problem.times);
        lines.heading("break", v.rest.is_some() as usize);
        if let Some(rest) = v.rest {
            lines.push(vec![number(rest.earliest), number(rest.latest), number(rest.duration)]);
        }
        lines.heading("draws", tape.len());
        for &word in tape {
            lines.push(vec![number(word as f64)]);
        }
        lines.heading("routes", plan.lengths.len());
        for route in plan.routes() {
            let mut line = vec![Token { text: route.len().to_string(), part: Part::Length }];
            line.extend(route.iter().map(|stop| Token { text: stop.to_string(), part: Part::Stop }));
            lines.push(line);
        }
        lines.heading("run", 1);
        lines.push(vec![number(*limit as f64), number(*clock as f64)]);
        lines
    }

    fn heading(&mut self, name: &str, count: usize) {
        let name = Token { text: name.to_string(), part: Part::Name };
        self.lines.push(vec![name, Token { text: count.to_string(), part: Part::Count }]);
    }

    fn push(&mut self, line: Vec<Token>) {
        self.lines.push(line);
    }

    fn square(&mut self, n: usize, cells: &[f64]) {
        for row in cells.chunks(n) {
            self.push(row.iter().map(|&cell| number(cell)).collect());
        }
    }

    /// The line on which a section begins.
    pub fn begin(&self, section: &str) -> usize {
        self.lines.iter().position(|line| line[0].text == section).expect("every section is there")
    }

    /// The line after a section's last.
    pub fn end(&self, section: &str) -> usize {
        let begin = self.begin(section);
        let more = self.lines[begin + 1..].iter().take_while(|line| line[0].part != Part::Name).count();
        begin + 1 + more
    }

    /// The text of a token.
    pub fn at(&mut self, line: usize, token: usize) -> &mut String {
        &mut self.lines[line][token].text
    }

    /// The count of a section.
    pub fn count(&mut self, section: &str) -> &mut String {
        let line = self.begin(section);
        self.at(line, 1)
    }

    /// The places, line and token, of the tokens that pass a test.
    pub fn places(&self, test: impl Fn(Part) -> bool) -> Vec<(usize, usize)> {
        let mut places = vec![];
        for (i, line) in self.lines.iter().enumerate() {
            places.extend(line.iter().enumerate().filter(|(_, token)| test(token.part)).map(|(j, _)| (i, j)));
        }
        places
    }

    /// The same numbers with leading zeros here and there, up to nine digits, and a minus before a zero that may have one.
    pub fn respell(&mut self, random: &mut Random) {
        for token in self.lines.iter_mut().flatten() {
            if token.part == Part::Name || token.text == "-" || !random.chance(30) {
                continue;
            }
            let more = random.below(3);
            pad(token, more);
            if token.part == Part::Signed && !token.text.starts_with('-') && token.text.bytes().all(|byte| byte == b'0')
            {
                token.text.insert(0, '-');
            }
        }
    }

    /// The same numbers with leading zeros, so that the sheet has this many bytes; false where it cannot.
    pub fn stretch(&mut self, bytes: usize) -> bool {
        let length = self.join().len();
        if length > bytes {
            return false;
        }
        let mut more = bytes - length;
        for token in self.lines.iter_mut().flatten() {
            if token.part != Part::Name && token.text != "-" {
                more -= pad(token, more);
            }
        }
        more == 0
    }

    pub fn join(&self) -> Vec<u8> {
        let mut text = String::new();
        for line in &self.lines {
            let tokens: Vec<&str> = line.iter().map(|token| token.text.as_str()).collect();
            text += &tokens.join(" ");
            text.push('\n');
        }
        text.into_bytes()
    }
}

/// Puts up to `most` zeros before a number's digits, nine digits in all; how many were put.
fn pad(token: &mut Token, most: usize) -> usize {
    let sign = token.text.starts_with('-') as usize;
    let more = most.min(9 - (token.text.len() - sign));
    token.text.insert_str(sign, &"0".repeat(more));
    more
}

fn number(value: f64) -> Token {
    Token { text: (value as u64).to_string(), part: Part::Number }
}

fn signed(value: i32) -> Token {
    Token { text: value.to_string(), part: Part::Signed }
}

fn optional(value: Option<f64>) -> Token {
    Token { text: value.map_or("-".to_string(), |value| (value as u64).to_string()), part: Part::Optional }
}
