//! Gaussian noise, which the library is lent. It is the wrapper's own and not proved: the library's promises hold for any noise words.

use crate::random::fill_words;
use crate::{Error, Random};
use std::f64::consts::TAU;
use std::io;

/// The standard deviations of the noise, as fractions of a turn.
///
/// The published ones stand with their parameter sets in [`sets`](crate::sets). A noise of 0 hides nothing, and neither does one far below
/// 2^-32, since a word counts 2^-32 of a turn: that is so at level 1 of Uint2 to Uint6, whose values were published for longer words.
#[derive(Debug, Clone, Copy, PartialEq)]
pub struct Noise {
    level0: f64,
    level1: f64,
}

impl Noise {
    /// The noise of ciphertexts and of the switching key (`level0`), and that of the bootstrapping key (`level1`). Each has to be a number
    /// from 0 to below an eighth of a turn, else [`Error::Spread`].
    pub fn new(level0: f64, level1: f64) -> Result<Noise, Error> {
        let fits = |spread: f64| (0.0..0.125).contains(&spread);
        if fits(level0) && fits(level1) {
            Ok(Noise { level0, level1 })
        } else {
            Err(Error::Spread)
        }
    }

    /// The same for the sets of this crate, whose numbers a test holds to the range.
    pub(crate) const fn stated(level0: f64, level1: f64) -> Noise {
        Noise { level0, level1 }
    }

    /// The standard deviation in ciphertexts and in the switching key.
    pub fn level0(self) -> f64 {
        self.level0
    }

    /// The standard deviation in the bootstrapping key.
    pub fn level1(self) -> f64 {
        self.level1
    }

    /// One noise word for a ciphertext.
    pub fn draw_level0<R: Random + ?Sized>(self, random: &mut R) -> io::Result<u32> {
        let mut word = [0];
        fill_gaussian(random, self.level0, &mut word)?;
        let [word] = word;
        Ok(word)
    }

    /// Noise words of the level-0 spread, as the switching key's generation is lent.
    pub fn fill_level0<R: Random + ?Sized>(self, random: &mut R, words: &mut [u32]) -> io::Result<()> {
        fill_gaussian(random, self.level0, words)
    }

    /// Noise words of the level-1 spread, as the bootstrapping key's generation is lent.
    pub fn fill_level1<R: Random + ?Sized>(self, random: &mut R, words: &mut [u32]) -> io::Result<()> {
        fill_gaussian(random, self.level1, words)
    }
}

/// 2^32, the units of a turn.
const TURN: f64 = 4_294_967_296.0;

/// Words whose centred values are normal with this standard deviation, by Box and Muller's method: two uniform numbers make two normal ones.
fn fill_gaussian<R: Random + ?Sized>(random: &mut R, spread: f64, words: &mut [u32]) -> io::Result<()> {
    let mut drawn = [0u32; 1024];
    for part in words.chunks_mut(512) {
        // Four words a pair of results: 53 bits of randomness for each uniform number.
        let pairs = part.len().saturating_add(1) / 2;
        let drawn = drawn.get_mut(..pairs.saturating_mul(4)).unwrap_or_default();
        fill_words(random, drawn)?;
        for (two, four) in part.chunks_mut(2).zip(drawn.chunks_exact(4)) {
            if let [a, b, c, d] = *four {
                // 1 - u is above 0, so the logarithm is finite.
                let radius = (-2.0 * (1.0 - unit(a, b)).ln()).sqrt() * spread * TURN;
                let (sine, cosine) = (TAU * unit(c, d)).sin_cos();
                for (word, value) in two.iter_mut().zip([radius * cosine, radius * sine]) {
                    *word = nearest(value);
                }
            }
        }
    }
    Ok(())
}

/// A uniform number from 0 to below 1, of 53 bits.
fn unit(high: u32, low: u32) -> f64 {
    let bits = (u64::from(high) << 32 | u64::from(low)) >> 11;
    bits as f64 / 9_007_199_254_740_992.0
}

/// The nearest whole number modulo 2^32. Below an eighth of a turn times the largest radius (8.6) it fits an i64 by far.
fn nearest(value: f64) -> u32 {
    value.round() as i64 as u32
}
