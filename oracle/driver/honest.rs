//! Honest key material and ciphertexts, made here and not by either side: binary keys,
//! random masks, small noise. What they encrypt is known, so results can be decrypted.

use crate::exact;
use crate::sizes::Sizes;
use crate::source::Source;

/// Standard deviations in words: of ciphertexts and the switching key, and of the bootstrapping key.
#[derive(Clone, Copy)]
pub struct Spread {
    pub level0: f64,
    pub level1: f64,
}

pub struct Keys {
    pub p: [u32; 6],
    pub key_lv0: Vec<u32>,
    pub key_lv1: Vec<u32>,
    pub switching: Vec<u32>,
    pub bootstrapping: Vec<u32>,
}

/// Noise of about the given deviation, in steps: a sum of twelve uniform parts.
fn noise(source: &mut Source, deviation: f64) -> u32 {
    let sum: f64 = (0..12).map(|_| (source.next() >> 11) as f64 / (1u64 << 53) as f64).sum();
    ((sum - 6.0) * deviation).round() as i64 as u32
}

/// The published deviations for 128 bits: at level 0 2e-5 of a turn, at level 1 2e-8, and there next to none beside wide digits, as the
/// published sets have it.
fn published(p: &[u32; 6]) -> Spread {
    Spread { level0: 85899.0, level1: if p[2] > 10 { 0.5 } else { 86.0 } }
}

/// A level-0 ciphertext of the plain word.
fn tlwe(source: &mut Source, key: &[u32], plain: u32, deviation: f64) -> Vec<u32> {
    let mut out: Vec<u32> = (0..key.len()).map(|_| source.next() as u32).collect();
    let body = plain.wrapping_add(noise(source, deviation)).wrapping_add(inner(&out, key));
    out.push(body);
    out
}

fn inner(a: &[u32], key: &[u32]) -> u32 {
    a.iter().zip(key).fold(0u32, |sum, (x, z)| sum.wrapping_add(x.wrapping_mul(*z)))
}

impl Keys {
    pub fn new(source: &mut Source, p: [u32; 6]) -> Keys {
        Keys::spread(source, p, published(&p))
    }

    pub fn spread(source: &mut Source, p: [u32; 6], spread: Spread) -> Keys {
        let s = Sizes::of(&p);
        let key_lv0: Vec<u32> = (0..s.n).map(|_| (source.next() >> 40) as u32 & 1).collect();
        let key_lv1: Vec<u32> = (0..s.ring).map(|_| (source.next() >> 40) as u32 & 1).collect();
        let mut switching = Vec::with_capacity(s.switching());
        for z in &key_lv1 {
            for j in 0..s.t as u32 {
                for k in 1..s.base as u32 {
                    switching.extend(tlwe(source, &key_lv0, (k * z) << (32 - (j + 1) * p[4]), spread.level0));
                }
            }
        }
        let mut bootstrapping = Vec::with_capacity(s.bootstrapping());
        for &bit in &key_lv0 {
            for row in 0..2 * p[3] {
                let mut a: Vec<u32> = (0..s.ring).map(|_| source.next() as u32).collect();
                let mut b = exact::product(&key_lv1, &a);
                b.iter_mut().for_each(|x| *x = x.wrapping_add(noise(source, spread.level1)));
                let g = bit << (32 - (row % p[3] + 1) * p[2]);
                let place = if row < p[3] { &mut a[0] } else { &mut b[0] };
                *place = place.wrapping_add(g);
                bootstrapping.extend(a);
                bootstrapping.extend(b);
            }
        }
        Keys { p, key_lv0, key_lv1, switching, bootstrapping }
    }

    pub fn encrypt(&self, source: &mut Source, bit: bool) -> Vec<u32> {
        self.encrypt_spread(source, bit, published(&self.p).level0)
    }

    pub fn encrypt_spread(&self, source: &mut Source, bit: bool, deviation: f64) -> Vec<u32> {
        tlwe(source, &self.key_lv0, if bit { 1 << 29 } else { 7 << 29 }, deviation)
    }

    /// A ciphertext of any plain word, as a message's is.
    pub fn encrypt_word(&self, source: &mut Source, plain: u32, deviation: f64) -> Vec<u32> {
        tlwe(source, &self.key_lv0, plain, deviation)
    }

    pub fn decrypt(&self, c: &[u32]) -> bool {
        let n = self.key_lv0.len();
        c[n].wrapping_sub(inner(&c[..n], &self.key_lv0)) as i32 >= 0
    }
}
