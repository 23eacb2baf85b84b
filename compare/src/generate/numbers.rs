//! The numbers of random problems.

use super::{Kind, Maker};

/// What a problem's distances, times and services are made of.
#[derive(Clone, Copy, PartialEq)]
pub enum Scale {
    Whole,
    Tenths,
    Thirds,
    Fractions,
    /// Up to 1e12, and small ones beside.
    Huge,
    /// Around 1e-6 and below.
    Tiny,
    /// Of very different sizes.
    Steep,
    /// Zero mostly.
    Sparse,
    /// Each number of a scale of its own.
    Mixed,
}

use Scale::*;

const POWERS: [f64; 13] = [1e-3, 1e-2, 0.1, 1.0, 1.0, 10.0, 100.0, 1e3, 1e5, 1e7, 1e8, 1e9, 1e10];

/// A number within row 2's domain.
pub fn domain(value: f64) -> f64 {
    if value > 0.0 {
        value.min(1e12)
    } else {
        0.0
    }
}

impl Maker {
    pub(super) fn scale_for(&mut self, kind: Kind) -> Scale {
        match kind {
            Kind::Gain => self.random.pick(&[Whole, Tenths, Thirds, Fractions, Fractions]),
            Kind::Windows | Kind::Break if self.random.chance(60) => {
                self.random.pick(&[Tenths, Tenths, Thirds, Fractions, Fractions, Steep])
            }
            _ => match self.random.below(100) {
                0..=19 => Whole,
                20..=41 => Tenths,
                42..=52 => Thirds,
                53..=71 => Fractions,
                72..=76 => Huge,
                77..=79 => Tiny,
                80..=86 => Steep,
                87..=92 => Sparse,
                _ => Mixed,
            },
        }
    }

    /// A number of the problem's scale.
    pub(super) fn number(&mut self) -> f64 {
        self.number_of(self.scale)
    }

    pub(super) fn number_of(&mut self, scale: Scale) -> f64 {
        let r = &mut self.random;
        match scale {
            Whole => r.below(41) as f64,
            Tenths => r.below(41) as f64 * 0.1,
            Thirds => r.below(100) as f64 / r.pick(&[3.0, 7.0]),
            Fractions => r.unit() * 40.0,
            Huge => match r.below(6) {
                0 => 1e12,
                1 => 1e12f64.next_down(),
                2 => 1e12 - r.below(1000) as f64,
                3 => r.unit() * 1e12,
                4 => r.below(41) as f64 * 0.1,
                _ => r.below(1000) as f64,
            },
            Tiny => match r.below(5) {
                0 => r.below(10) as f64 * 1e-6,
                1 => r.unit() * 1e-6,
                2 => f64::from_bits(r.below(4) as u64),
                3 => f64::MIN_POSITIVE * r.below(3) as f64,
                _ => r.below(4) as f64 * 0.1,
            },
            Steep => r.unit() * r.pick(&POWERS),
            Sparse => match r.below(6) {
                0 => r.below(4) as f64,
                1 => r.below(10) as f64 * 0.1,
                _ => 0.0,
            },
            Mixed => {
                let scale = r.pick(&[Whole, Tenths, Thirds, Fractions, Huge, Tiny, Steep, Sparse]);
                self.number_of(scale)
            }
        }
    }

    /// A value, or the float just above or below it.
    pub(super) fn near(&mut self, value: f64) -> f64 {
        domain(match self.random.below(3) {
            0 => value.next_up(),
            1 => value.next_down(),
            _ => value,
        })
    }

    /// A number that nothing may read.
    pub(super) fn garbage(&mut self) -> f64 {
        let bad = [f64::NAN, -f64::NAN, f64::INFINITY, f64::NEG_INFINITY, -0.0, -1.0, 1e300, f64::MIN];
        if self.random.chance(60) {
            self.random.pick(&bad)
        } else {
            self.number()
        }
    }

    /// Any float at all.
    pub(super) fn any_float(&mut self) -> f64 {
        match self.random.below(4) {
            0 => self.number(),
            1 => -self.number(),
            2 => f64::from_bits(self.random.word()),
            _ => self.garbage(),
        }
    }
}
