//! Drift by document 01's section 'Drift', in whole numbers and step by step. It is written from that text alone: row errors, digits, products
//! and remainders are worked out here, and nothing is brought modulo 2^32 before its end. Only the words that a rotation goes through come from
//! `exact`, and a switching row's place from `sizes`.

use crate::exact::{self, Pair};
use crate::sizes::Sizes;
use std::cell::Cell;

pub type Whole = i128;
type Poly = Vec<Whole>;

const TURN: Whole = 1 << 32;

/// An eighth of a turn: what a bit is carried by, and the bound of 'inside'.
pub const EIGHTH: Whole = 1 << 29;

/// Brought modulo 2^32 into -2^31 to 2^31 - 1.
pub fn centred(x: Whole) -> Whole {
    (x + TURN / 2).rem_euclid(TURN) - TURN / 2
}

pub fn word(x: Whole) -> u32 {
    x.rem_euclid(TURN) as u32
}

/// Absolute value below 2^29.
pub fn inside(drift: Whole) -> bool {
    -EIGHTH < drift && drift < EIGHTH
}

/// ±2^29 for a bit.
pub fn carried(bit: bool) -> Whole {
    if bit { EIGHTH } else { -EIGHTH }
}

fn whole(words: &[u32]) -> Poly {
    words.iter().map(|&x| Whole::from(x)).collect()
}

fn plus(a: &[Whole], b: &[Whole]) -> Poly {
    a.iter().zip(b).map(|(x, y)| x + y).collect()
}

fn minus(a: &[Whole], b: &[Whole]) -> Poly {
    a.iter().zip(b).map(|(x, y)| x - y).collect()
}

/// a times b, X^N being -1.
fn times(a: &[Whole], b: &[Whole]) -> Poly {
    let n = a.len();
    let mut out = vec![0; n];
    for (i, x) in a.iter().enumerate().filter(|(_, x)| **x != 0) {
        for (j, y) in b.iter().enumerate() {
            if i + j < n { out[i + j] += x * y } else { out[i + j - n] -= x * y }
        }
    }
    out
}

/// X^k times a, X^N being -1.
fn turned(a: &[Whole], k: usize) -> Poly {
    let n = a.len();
    let mut out = vec![0; n];
    for (i, x) in a.iter().enumerate() {
        let place = (i + k) % (2 * n);
        out[place % n] = if place < n { *x } else { -x };
    }
    out
}

/// W(k): 1 at each place of the result that rotation k complements.
fn complemented(n: usize, k: usize) -> Poly {
    let mut out = vec![0; n];
    for place in (0..n).map(|i| (i + k) % (2 * n)).filter(|place| *place >= n) {
        out[place - n] = 1;
    }
    out
}

/// One rotation: the drift brought into it, and the sample that is extracted after it with its drift.
pub struct Rotation {
    pub brought: Whole,
    pub sample: Vec<u32>,
    pub drift: Whole,
}

/// Both secret keys and the key material, with the errors of the bootstrapping rows.
pub struct Reckoner<'a> {
    pub p: [u32; 6],
    s: Sizes,
    pub key: &'a [u32],
    z: Poly,
    pub switching: &'a [u32],
    pub bootstrapping: &'a [u32],
    errors: Vec<Poly>,
    /// The sum over i < L of 2^(31 - i·BGBIT).
    offset: Whole,
    /// Accumulators met, and those whose phase was not the turned test vector plus the drift.
    pub accumulators: Cell<u64>,
    pub exceptions: Cell<u64>,
}

impl<'a> Reckoner<'a> {
    pub fn new(p: [u32; 6], key: &'a [u32], z: &[u32], switching: &'a [u32], bootstrapping: &'a [u32]) -> Reckoner<'a> {
        let (s, z, errors) = (Sizes::of(&p), whole(z), Vec::new());
        let offset = (0..p[3]).map(|i| 1 << (31 - i * p[2])).sum();
        let (accumulators, exceptions) = (Cell::new(0), Cell::new(0));
        let mut out = Reckoner { p, s, key, z, switching, bootstrapping, errors, offset, accumulators, exceptions };
        out.errors = (0..bootstrapping.len() / (2 * out.s.ring)).map(|row| out.bootstrapping_error(row)).collect();
        out
    }

    /// Phase is b - a·key.
    fn phase(&self, a: &[Whole], b: &[Whole]) -> Poly {
        minus(b, &times(a, &self.z))
    }

    pub fn level0_phase(&self, c: &[u32]) -> Whole {
        let masks: Whole = c.iter().zip(self.key).map(|(x, s)| Whole::from(*x) * Whole::from(*s)).sum();
        Whole::from(c[self.s.n]) - masks
    }

    /// Phase less ±2^29 for the given bit.
    pub fn fresh(&self, c: &[u32], bit: bool) -> Whole {
        centred(self.level0_phase(c) - carried(bit))
    }

    /// Phase less the message's word, which is (value mod M)·2^31/M.
    pub fn of_message(&self, c: &[u32], value: u64, modulus: u64) -> Whole {
        let message = Whole::from(value).rem_euclid(Whole::from(modulus));
        centred(self.level0_phase(c) - message * (TURN / 2) / Whole::from(modulus))
    }

    /// A row's phase less -m·g_i·z, or less m·g_i in the lower half of a bit's rows.
    fn bootstrapping_error(&self, row: usize) -> Poly {
        let (n, l) = (self.s.ring, self.s.l);
        let words = &self.bootstrapping[row * 2 * n..(row + 1) * 2 * n];
        let (m, r) = (Whole::from(self.key[row / (2 * l)]), row % (2 * l));
        let g: Whole = 1 << (32 - (r as u32 % self.p[3] + 1) * self.p[2]);
        let mut carries = vec![0; n];
        if r < l {
            carries.iter_mut().zip(&self.z).for_each(|(c, z)| *c = -m * g * z);
        } else {
            carries[0] = m * g;
        }
        let phase = self.phase(&whole(&words[..n]), &whole(&words[n..]));
        minus(&phase, &carries).into_iter().map(centred).collect()
    }

    /// Row (i, j, k)'s phase less k·z_i·2^(32-(j+1)·BASEBIT).
    fn switching_error(&self, i: usize, j: usize, k: usize) -> Whole {
        let s = &self.s;
        let at = s.place([i, j, k]) * (s.n + 1);
        let carries = (k as Whole * self.z[i]) << (32 - (j as u32 + 1) * self.p[4]);
        centred(self.level0_phase(&self.switching[at..at + s.n + 1]) - carries)
    }

    /// Rounded steps of a word, before any wrap.
    fn steps(&self, w: u32) -> Whole {
        let h: Whole = 1 << (30 - self.p[1]);
        (Whole::from(w) + h).div_euclid(2 * h)
    }

    /// Rounded steps times 2h, less the word.
    fn remainder(&self, w: u32) -> Whole {
        (self.steps(w) << (31 - self.p[1])) - Whole::from(w)
    }

    /// b's remainder, less the key-selected ones.
    fn remainders(&self, sum: &[u32]) -> Whole {
        let selected: Whole = sum.iter().zip(self.key).filter(|(_, s)| **s == 1).map(|(w, _)| self.remainder(*w)).sum();
        self.remainder(sum[self.s.n]) - selected
    }

    /// Digit i of a word, read as signed.
    fn digit(&self, w: u32, i: u32) -> Whole {
        let bgbit = self.p[2];
        let shifted = (Whole::from(w) + self.offset).rem_euclid(TURN);
        (shifted >> (32 - (i + 1) * bgbit)).rem_euclid(1 << bgbit) - (1 << (bgbit - 1))
    }

    /// The digits of in2 - in1 times the errors of bit i's rows.
    fn digits_times_errors(&self, difference: &Pair, i: usize) -> Poly {
        let l = self.s.l;
        let mut out = vec![0; self.s.ring];
        for r in 0..2 * l {
            let half = if r < l { &difference.0 } else { &difference.1 };
            let digits: Poly = half.iter().map(|w| self.digit(*w, (r % l) as u32)).collect();
            out = plus(&out, &times(&digits, &self.errors[i * 2 * l + r]));
        }
        out
    }

    /// The phase of the low bits that the digits leave out.
    fn cleared_phase(&self, difference: &Pair) -> Poly {
        let low = |half: &[u32]| -> Poly { half.iter().map(|w| Whole::from(*w).rem_euclid(TURN >> (self.p[2] * self.p[3]))).collect() };
        self.phase(&low(&difference.0), &low(&difference.1))
    }

    /// W(k)·z - W(k).
    fn complements(&self, k: usize) -> Poly {
        let w = complemented(self.s.ring, k);
        minus(&times(&w, &self.z), &w)
    }

    /// The drift after step i, by k, whose accumulator was `at`.
    fn stepped(&self, drift: &[Whole], at: &Pair, i: usize, k: usize) -> Poly {
        let difference: Pair = (take(&exact::rotated(&at.0, k), &at.0), take(&exact::rotated(&at.1, k), &at.1));
        let kept = if self.key[i] == 1 {
            minus(&plus(&turned(drift, k), &self.complements(k)), &self.cleared_phase(&difference))
        } else {
            drift.to_vec()
        };
        plus(&kept, &self.digits_times_errors(&difference, i))
    }

    /// Turns a test vector by a sum whose operands bring in `operands`, and extracts at 0.
    pub fn rotation(&self, vector: &Pair, sum: &[u32], operands: Whole) -> Rotation {
        let n = self.s.ring;
        let start = exact::body_amount(&self.p, sum[self.s.n]) as usize;
        let mut at = (exact::rotated(&vector.0, start), exact::rotated(&vector.1, start));
        let carried = self.phase(&whole(&vector.0), &whole(&vector.1));
        let (mut drift, mut turns) = (self.complements(start), start);
        self.look(&carried, &at, turns, &drift);
        for i in 0..self.s.n {
            let k = self.steps(sum[i]) as usize % (2 * n);
            drift = self.stepped(&drift, &at, i, k);
            at = exact::step(&self.p, self.bootstrapping, i, sum[i], &at.0, &at.1);
            turns += k * self.key[i] as usize;
            self.look(&carried, &at, turns, &drift);
        }
        let ones: Whole = self.z[1..].iter().sum();
        let brought = centred(operands + self.remainders(sum));
        Rotation { brought, sample: exact::extract(&at.0, &at.1, 0), drift: drift[0] + ones }
    }

    /// Counts the accumulator, and whether its phase is the test vector's, turned so far, plus the drift.
    fn look(&self, carried: &[Whole], at: &Pair, turns: usize, drift: &[Whole]) {
        let phase = self.phase(&whole(&at.0), &whole(&at.1));
        let told = plus(&turned(carried, turns), drift);
        let same = phase.iter().zip(&told).all(|(x, y)| centred(x - y) == 0);
        self.accumulators.set(self.accumulators.get() + 1);
        self.exceptions.set(self.exceptions.get() + u64::from(!same));
    }

    /// The drift after switching a sample: less the errors of the rows used, less the rounding of each mask under a 1 of z.
    pub fn switched(&self, sample: &[u32], drift: Whole) -> Whole {
        let (basebit, t) = (self.p[4], self.p[5]);
        let half: Whole = 1 << (31 - basebit * t);
        let mut out = drift;
        for i in 0..self.s.ring {
            let a = (Whole::from(sample[i]) + half).rem_euclid(TURN);
            for j in 0..t {
                let k = (a >> (32 - (j + 1) * basebit)).rem_euclid(1 << basebit) as usize;
                if k != 0 {
                    out -= self.switching_error(i, j as usize, k);
                }
            }
            out -= self.z[i] * (half - a.rem_euclid(2 * half));
        }
        out
    }
}

fn take(a: &[u32], b: &[u32]) -> Vec<u32> {
    a.iter().zip(b).map(|(x, y)| x.wrapping_sub(*y)).collect()
}
