//! Matrix entries as they lie to a threshold: below, not below, or from a small pool full of ties.

use crate::rng::Rng;

#[derive(Clone, Copy)]
pub struct Levels(pub f64);

/// How the entries that nobody aims at are made.
#[derive(Clone, Copy, PartialEq)]
pub enum Noise {
    Plain,
    Ragged,
    Ties,
}

impl Levels {
    /// Finite and strictly below the threshold, where there is such a number.
    pub fn under(self, rng: &mut Rng) -> f64 {
        let t = self.0;
        if t > 0.0 && rng.chance(10) {
            return rng.pick(&[0.0, -0.0]);
        }
        if !t.is_finite() {
            return rng.pick(&[0.25, 0.5, 1.0, 7.0]) * if rng.chance(60) { 1.0 } else { rng.unit() };
        }
        let less = if rng.chance(50) { rng.pick(&[0.25, 0.5]) } else { 0.01 + rng.unit() };
        let made = t - less * t.abs().max(1.0);
        if made < t { made } else { -1.0 }
    }

    /// Finite where it can be, and not below the threshold.
    pub fn over(self, rng: &mut Rng) -> f64 {
        let t = self.0;
        if t.is_finite() { t + (0.5 + 4.0 * rng.unit()) * t.abs().max(1.0) } else { f64::INFINITY }
    }

    /// Not below the threshold, often oddly so.
    pub fn odd(self, rng: &mut Rng) -> f64 {
        let over = self.over(rng);
        rng.pick(&[over, over, self.0, self.0, f64::NAN, f64::INFINITY, f64::NEG_INFINITY])
    }

    /// Few distinct values.
    pub fn pooled(self, rng: &mut Rng) -> f64 {
        let base = if self.0.is_finite() { self.0 } else { 1.0 };
        let (a, b) = (base - 0.5, base - 0.25);
        rng.pick(&[a, a, a, b, b, base, base + 1.0, 0.0, -0.0, 0.0, f64::NAN, f64::INFINITY])
    }

    /// An entry that is aimed at.
    pub fn aimed(self, rng: &mut Rng, noise: Noise) -> f64 {
        if noise == Noise::Ties && rng.chance(60) {
            let base = if self.0.is_finite() { self.0 } else { 1.0 };
            return if base > 0.0 { rng.pick(&[base - 0.5, base - 0.5, 0.0, -0.0]) } else { base - 0.5 };
        }
        self.under(rng)
    }

    /// An entry that nobody aims at.
    pub fn beside(self, rng: &mut Rng, noise: Noise) -> f64 {
        match noise {
            Noise::Plain => self.over(rng),
            Noise::Ragged if rng.chance(10) => self.under(rng),
            Noise::Ragged => self.odd(rng),
            Noise::Ties => self.pooled(rng),
        }
    }
}
