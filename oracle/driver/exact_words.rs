//! Sums, encryption, decryption and key generation by document 01's words, written independently of both sides: what ciphertexts, pairs and keys must be
//! word for word, with the original or without it.

use crate::exact::{self, Pair};
use crate::sizes::Sizes;

/// What must be: our words, and where the original is at hand, its own are these too.
pub fn agreed<T: PartialEq>(theirs: Option<T>, ours: T) -> T {
    assert!(theirs.is_none_or(|t| t == ours), "the original and the model of the harness differ");
    ours
}

/// x·a + y·b, word by word.
pub fn combined(a: &[u32], x: u32, b: &[u32], y: u32) -> Vec<u32> {
    a.iter().zip(b).map(|(u, v)| u.wrapping_mul(x).wrapping_add(v.wrapping_mul(y))).collect()
}

/// The masks' sum under the key.
fn inner(masks: &[u32], key: &[u32]) -> u32 {
    masks.iter().zip(key).filter(|(_, z)| **z == 1).fold(0, |sum, (a, _)| sum.wrapping_add(*a))
}

/// The masks, then their sum under the key + plain word + noise.
pub fn encrypted(plain: u32, masks: &[u32], noise: u32, key: &[u32]) -> Vec<u32> {
    let b = inner(masks, key).wrapping_add(plain).wrapping_add(noise);
    masks.iter().copied().chain([b]).collect()
}

/// A bit is an eighth of a turn, or minus an eighth.
pub fn bit_word(bit: bool) -> u32 {
    if bit { 1 << 29 } else { 7 << 29 }
}

/// Message m, modulus M: (m mod M) * 2^31 / M.
pub fn message_word(value: u64, modulus: u64) -> u32 {
    (value % modulus * (1 << 31) / modulus) as u32
}

pub fn phase(c: &[u32], key: &[u32]) -> u32 {
    c[key.len()].wrapping_sub(inner(&c[..key.len()], key))
}

/// The message of a phase: the nearest multiple of 1/(2M), modulo M.
pub fn message_of(phase: u32, modulus: u64) -> u64 {
    ((phase as u64 * 2 * modulus + (1 << 31)) >> 32) % modulus
}

/// a = masks, b = noise + plain words + a * key.
pub fn pair(plain: &[u32], masks: &[u32], noise: &[u32], key: &[u32]) -> Pair {
    let b = combined(&combined(plain, 1, noise, 1), 1, &exact::product(key, masks), 1);
    (masks.to_vec(), b)
}

/// The bits of a pair: true where the phase, read as signed, is 0 or more.
pub fn pair_bits(a: &[u32], b: &[u32], key: &[u32]) -> Vec<bool> {
    combined(b, 1, &exact::product(key, a), u32::MAX).into_iter().map(|w| w as i32 >= 0).collect()
}

pub fn testvec(p: &[u32; 6]) -> Pair {
    (vec![0; 1 << p[1]], vec![1 << 29; 1 << p[1]])
}

/// Row after row: row (i, j, k), k from 1, encrypts k * z_i * 2^(32 - (j+1) BASEBIT).
pub fn switching_key(p: &[u32; 6], key0: &[u32], key1: &[u32], masks: &[u32], noise: &[u32]) -> Vec<u32> {
    let s = Sizes::of(p);
    let mut drawn = masks.chunks(s.n).zip(noise);
    let mut out = Vec::with_capacity(s.switching());
    for z in key1 {
        for j in 1..=p[5] {
            for k in 1..s.base as u32 {
                let (masks, noise) = drawn.next().expect("masks and noise for every row");
                out.extend(encrypted((k * z) << (32 - j * p[4]), masks, *noise, key0));
            }
        }
    }
    out
}

/// 2L rows, a then b: encryptions of zero, with m * g_i added to a[0] in row i and to b[0] in row L + i.
pub fn torus_rows(p: &[u32; 6], m: u32, masks: &[u32], noise: &[u32], key1: &[u32]) -> Vec<u32> {
    let s = Sizes::of(p);
    let mut out = Vec::with_capacity(s.rows());
    for (row, (masks, noise)) in masks.chunks(s.ring).zip(noise.chunks(s.ring)).enumerate() {
        let (mut a, mut b) = pair(&vec![0; s.ring], masks, noise, key1);
        let weight = m.wrapping_mul(1 << (32 - (row % s.l + 1) * p[2] as usize));
        let place = if row < s.l { &mut a[0] } else { &mut b[0] };
        *place = place.wrapping_add(weight);
        out.extend(a);
        out.extend(b);
    }
    out
}

/// Such rows for each bit of the level-0 key.
pub fn bootstrapping_key(p: &[u32; 6], key0: &[u32], key1: &[u32], masks: &[u32], noise: &[u32]) -> Vec<u32> {
    let words = Sizes::of(p).rows() / 2;
    let drawn = masks.chunks(words).zip(noise.chunks(words));
    key0.iter().zip(drawn).flat_map(|(bit, (masks, noise))| torus_rows(p, *bit, masks, noise, key1)).collect()
}
