//! The reader of a sheet, front to back to its first fault: document 01, "The rest: bound and sheet", and rows 10 to 12 of its table.

use crate::problem::{Break, Plan, Problem, Vehicle, PENALTY, WINDOW};

/// What a sheet says: the problem, the first plan, and what minimise is given.
pub struct Sheet {
    pub problem: Problem,
    pub plan: Plan,
    pub tape: Vec<u64>,
    pub limit: u64,
    pub clock: u64,
}

const TOO_LONG: u8 = 10;
const NOT_OF_THE_FORM: u8 = 11;
const TOO_MANY: u8 = 12;

const MOST_BYTES: usize = 60_000;
const MOST_PLACES: u64 = 64;
const MOST_ROUTES: u64 = 64;
const MOST_STOPS: u64 = 64;
const MOST_DRAWS: u64 = 1_024;

/// Reads a sheet, or says the number that it is refused with.
pub fn read(text: &[u8]) -> Result<Sheet, u8> {
    if text.len() > MOST_BYTES {
        return Err(TOO_LONG);
    }
    let mut reader = Reader { rest: text };
    let sheet = reader.sheet()?;
    if reader.rest.is_empty() {
        Ok(sheet)
    } else {
        Err(NOT_OF_THE_FORM)
    }
}

/// The text that is still to be read.
struct Reader<'a> {
    rest: &'a [u8],
}

impl<'a> Reader<'a> {
    fn sheet(&mut self) -> Result<Sheet, u8> {
        self.section("vehicle", 1)?;
        let capacity = self.signed(b' ')?;
        if self.number(b' ')? != 0 {
            return Err(NOT_OF_THE_FORM);
        }
        let fixed_cost = self.number(b' ')? as f64;
        let cost_per_distance = self.number(b' ')? as f64;
        let max_distance = self.optional(b' ')?;
        let max_duration = self.optional(b'\n')?;

        let count = self.count("places")?;
        if count == 0 || count > MOST_PLACES {
            return Err(TOO_MANY);
        }
        self.byte(b'\n')?;
        let n = count as usize;
        let (mut demand, mut service, mut flags) = (vec![], vec![], vec![]);
        let (mut ready, mut due, mut penalty) = (vec![], vec![], vec![]);
        for _ in 0..n {
            demand.push(self.signed(b' ')?);
            service.push(self.number(b' ')? as f64);
            let window = (self.optional(b' ')?, self.optional(b' ')?);
            if window.0.is_some() != window.1.is_some() {
                return Err(NOT_OF_THE_FORM);
            }
            let price = self.optional(b'\n')?;
            // a value under a clear flag is not read
            ready.push(window.0.unwrap_or(f64::NAN));
            due.push(window.1.unwrap_or(f64::NAN));
            penalty.push(price.unwrap_or(f64::NAN));
            flags.push(if window.0.is_some() { WINDOW } else { 0 } | if price.is_some() { PENALTY } else { 0 });
        }

        self.section("distances", count)?;
        let distances = self.square(n)?;
        let times = if self.either("times", count)? { self.square(n)? } else { vec![] };
        let rest = if self.either("break", 1)? {
            let earliest = self.number(b' ')? as f64;
            let latest = self.number(b' ')? as f64;
            Some(Break { earliest, latest, duration: self.number(b'\n')? as f64 })
        } else {
            None
        };

        let draws = self.count("draws")?;
        if draws > MOST_DRAWS {
            return Err(TOO_MANY);
        }
        self.byte(b'\n')?;
        let tape = (0..draws).map(|_| self.number(b'\n')).collect::<Result<_, _>>()?;

        let routes = self.count("routes")?;
        if routes > MOST_ROUTES {
            return Err(TOO_MANY);
        }
        self.byte(b'\n')?;
        let mut plan = Plan { lengths: vec![], stops: vec![] };
        let mut planned = 0;
        for _ in 0..routes {
            let length = unsigned(self.token())?;
            planned += length;
            if planned > MOST_STOPS {
                return Err(TOO_MANY);
            }
            plan.lengths.push(length as u16);
            for _ in 0..length {
                self.byte(b' ')?;
                // a number that is no u16 is no place either
                plan.stops.push(u16::try_from(unsigned(self.token())?).unwrap_or(u16::MAX));
            }
            self.byte(b'\n')?;
        }

        self.section("run", 1)?;
        let limit = self.number(b' ')?;
        let clock = self.number(b'\n')?;
        let vehicle = Vehicle { capacity, depot: 0, fixed_cost, cost_per_distance, max_distance, max_duration, rest };
        let problem = Problem { places: n, demand, service, ready, due, penalty, flags, distances, times, vehicle };
        Ok(Sheet { problem, plan, tape, limit, clock })
    }

    /// A section's name and its count, which ends its token; the line's end is still to be read.
    fn count(&mut self, name: &str) -> Result<u64, u8> {
        if self.token() != name.as_bytes() {
            return Err(NOT_OF_THE_FORM);
        }
        self.byte(b' ')?;
        unsigned(self.token())
    }

    /// The first line of a section whose count must be this.
    fn section(&mut self, name: &str, count: u64) -> Result<(), u8> {
        if self.count(name)? != count {
            return Err(NOT_OF_THE_FORM);
        }
        self.byte(b'\n')
    }

    /// The first line of a section whose count must be this or 0: whether it is this.
    fn either(&mut self, name: &str, count: u64) -> Result<bool, u8> {
        let found = self.count(name)?;
        if found != 0 && found != count {
            return Err(NOT_OF_THE_FORM);
        }
        self.byte(b'\n')?;
        Ok(found != 0)
    }

    fn square(&mut self, n: usize) -> Result<Vec<f64>, u8> {
        let mut cells = vec![];
        for _ in 0..n {
            for column in 1..=n {
                cells.push(self.number(if column == n { b'\n' } else { b' ' })? as f64);
            }
        }
        Ok(cells)
    }

    /// The bytes up to the next space, line end or the end of the text.
    fn token(&mut self) -> &'a [u8] {
        let length = self.rest.iter().position(|&byte| byte == b' ' || byte == b'\n').unwrap_or(self.rest.len());
        let (token, rest) = self.rest.split_at(length);
        self.rest = rest;
        token
    }

    fn byte(&mut self, byte: u8) -> Result<(), u8> {
        self.rest = self.rest.strip_prefix(&[byte]).ok_or(NOT_OF_THE_FORM)?;
        Ok(())
    }

    /// A number and the byte that must follow it.
    fn number(&mut self, end: u8) -> Result<u64, u8> {
        let number = unsigned(self.token())?;
        self.byte(end)?;
        Ok(number)
    }

    /// A number that may have a minus sign.
    fn signed(&mut self, end: u8) -> Result<i32, u8> {
        let token = self.token();
        let number = match token.strip_prefix(b"-") {
            Some(digits) => -(unsigned(digits)? as i32),
            None => unsigned(token)? as i32,
        };
        self.byte(end)?;
        Ok(number)
    }

    /// A number, or a lone minus for none.
    fn optional(&mut self, end: u8) -> Result<Option<f64>, u8> {
        let number = match self.token() {
            b"-" => None,
            token => Some(unsigned(token)? as f64),
        };
        self.byte(end)?;
        Ok(number)
    }
}

/// "numbers are 1 to 9 digits"
fn unsigned(token: &[u8]) -> Result<u64, u8> {
    if token.is_empty() || token.len() > 9 || !token.iter().all(u8::is_ascii_digit) {
        return Err(NOT_OF_THE_FORM);
    }
    Ok(token.iter().fold(0, |number, digit| 10 * number + (digit - b'0') as u64))
}
