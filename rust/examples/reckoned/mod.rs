//! How far drifts spread at a set, reckoned before a run from its numbers and its noise: standard deviations in 2^-32 of a turn, for keys and masks that are drawn at random. It is an
//! estimate, and nothing of it is proved; what a run's drifts were, a lookup with drift tells.

use egl::sets::Set;

/// The standard deviations that a table's margins have to hold.
pub struct Spreads {
    /// What rounding adds to the drift that is brought into a rotation.
    pub rounding: f64,
    /// The drift of a fresh ciphertext.
    pub fresh: f64,
    /// The drift of a lookup's result, and of a gate's.
    pub result: f64,
}

impl Spreads {
    pub fn of(set: Set) -> Spreads {
        let p = set.params;
        let [n, l, t] = [p.n, p.l, p.t].map(f64::from);
        let power = |exponent: u32| (f64::from(exponent)).exp2();
        let (length, turn) = (power(p.nbit), power(32));
        let (fresh, row) = (set.noise.level0() * turn, set.noise.level1() * turn);
        // A noise far below one word is drawn as 0.
        let row = if row < 0.1 { 0.0 } else { row };

        // The last word, and each mask whose key bit is 1, is off by up to half a step either way.
        let rounding = (n / 2.0 + 1.0) * (power(30) / length).powi(2) / 3.0;
        // 2l digit polynomials of N digits for each mask, each times a row's noise.
        let rows = n * 2.0 * l * length * power(2 * p.bgbit) / 12.0 * row * row;
        // The cleared low bits, from 0 up to `unit`: their mean counts with the key's ones, some added and some taken away, besides their spread.
        let unit = power(32 - p.l * p.bgbit);
        let cleared = if unit > 1.0 { n / 2.0 * unit * unit / 12.0 * (length / 2.0 + 1.0 + length * length / 4.0) } else { 0.0 };
        // The rows that a switching subtracts, and the low bits that it drops of the masks whose key bit is 1.
        let digits = 1.0 - 1.0 / power(p.basebit);
        let switching = length * t * digits * fresh * fresh + length / 2.0 * power(32 - p.basebit * p.t).powi(2) / 12.0;
        Spreads { rounding: rounding.sqrt(), fresh, result: (rows + cleared + switching).sqrt() }
    }

    /// What a rotation is brought: rounding, and the squares of the multiples of so many fresh ciphertexts and results.
    pub fn brought(&self, fresh: f64, results: f64) -> f64 {
        (self.rounding.powi(2) + fresh * self.fresh.powi(2) + results * self.result.powi(2)).sqrt()
    }
}
