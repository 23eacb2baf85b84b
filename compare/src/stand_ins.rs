//! Stand-ins for the draws (`rand`) and the clock (`u_metaheur`), as document 01 says, counting draws and steps.

use std::cell::Cell;
use std::ops::{Range, RangeInclusive};

/// A source of draws.
pub trait Rng {
    fn word(&mut self) -> u64;
}

/// What the original asks of a source of draws.
pub trait RngExt: Rng {
    /// A range of m values gives word mod m.
    fn random_range(&mut self, range: impl Values) -> u64 {
        let (first, count) = range.values();
        first + self.word() % count
    }

    /// True for an even word: the original asks for 0.5 only.
    fn random_bool(&mut self, half: f64) -> bool {
        assert!(half == 0.5);
        self.word().is_multiple_of(2)
    }
}

impl<R: Rng> RngExt for R {}

/// The first value of a range, and how many it has.
pub trait Values {
    fn values(self) -> (u64, u64);
}

impl Values for Range<u64> {
    fn values(self) -> (u64, u64) {
        (self.start, self.end - self.start)
    }
}

impl Values for RangeInclusive<u64> {
    fn values(self) -> (u64, u64) {
        (*self.start(), self.end() - self.start() + 1)
    }
}

/// The draw tape of one call: from its first word, after the last the first again.
pub struct Tape<'a> {
    words: &'a [u64],
    at: usize,
    pub draws: u64,
}

impl<'a> Tape<'a> {
    pub fn new(words: &'a [u64]) -> Self {
        Tape { words, at: 0, draws: 0 }
    }
}

impl Rng for Tape<'_> {
    fn word(&mut self) -> u64 {
        let word = self.words[self.at];
        self.at += 1;
        if self.at == self.words.len() {
            self.at = 0;
        }
        self.draws += 1;
        word
    }
}

/// The clock of one call: it answers no to the first K askings, yes from then on. A step is an asking answered no.
pub struct Deadline {
    most: u64,
    steps: Cell<u64>,
}

impl Deadline {
    pub fn new(most: u64) -> Self {
        Deadline { most, steps: Cell::new(0) }
    }

    pub fn passed(&self) -> bool {
        let steps = self.steps.get();
        if steps == self.most {
            return true;
        }
        self.steps.set(steps + 1);
        false
    }

    pub fn steps(&self) -> u64 {
        self.steps.get()
    }
}
