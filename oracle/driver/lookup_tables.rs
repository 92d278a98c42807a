//! Lookup tables by the words of document 02, 2026-07, and its reading: a table's test vector, a lookup by the exact steps, and its two drifts by the reckoning of
//! document 01.

use crate::exact::{self, Pair};
use crate::reckoning::{centred, word, Reckoner, Whole};

/// Coefficient i of the vector's b: f at (i·M + N/2) div N, or f(0) negated where that is M.
fn coefficient(ring: usize, table: &[u32], i: usize) -> u32 {
    let (n, m) = (ring as Whole, table.len() as Whole);
    let at = (i as Whole * m + n / 2).div_euclid(n);
    if at == m { word(-Whole::from(table[0])) } else { table[at as usize] }
}

pub fn testvec(ring: usize, table: &[u32]) -> Pair {
    (vec![0; ring], (0..ring).map(|i| coefficient(ring, table, i)).collect())
}

/// What a vector has at a place: past N, where X^N is -1, its words stand negated, and from 2N on they stand again.
pub fn read_at(vector: &[u32], place: i64) -> Whole {
    let n = vector.len() as i64;
    let at = place.rem_euclid(2 * n);
    let found = Whole::from(vector[(at % n) as usize]);
    if at < n { found } else { -found }
}

pub fn lookup(p: &[u32; 6], table: &[u32], c: &[u32], switching: &[u32], bootstrapping: &[u32]) -> Vec<u32> {
    let (va, vb) = testvec(1 << p[1], table);
    let (a, b) = exact::blind_rotate_of(p, c, (&va, &vb), bootstrapping);
    exact::switch(p, &exact::extract(&a, &b, 0), switching)
}

/// The bound that a drift has to stay strictly inside, for messages of this modulus: 2^31/(2M).
pub fn margin(modulus: u64) -> Whole {
    (1 << 31) / (2 * Whole::from(modulus))
}

/// A lookup with its drifts.
pub struct Looked {
    pub out: Vec<u32>,
    /// What is switched.
    pub sample: Vec<u32>,
    pub brought: Whole,
    pub drift: Whole,
    /// Whether both drifts are strictly inside their margins.
    pub inside: bool,
}

pub fn reckoned(r: &Reckoner, table: &[u32], results: u64, value: u64, c: &[u32]) -> Looked {
    let modulus = table.len() as u64;
    let rotation = r.rotation(&testvec(1 << r.p[1], table), c, r.of_message(c, value, modulus));
    let drift = centred(r.switched(&rotation.sample, rotation.drift));
    let inside = rotation.brought.abs() < margin(modulus) && drift.abs() < margin(results);
    Looked { out: exact::switch(&r.p, &rotation.sample, r.switching), sample: rotation.sample, brought: rotation.brought, drift, inside }
}

/// The word that a lookup takes, be it the message's own or not: what the vector has where the rounded phase falls.
pub fn taken(r: &Reckoner, table: &[u32], c: &[u32]) -> Whole {
    let masks: i64 = c.iter().zip(r.key).map(|(w, s)| i64::from(*s) * i64::from(exact::mask_amount(&r.p, *w))).sum();
    let turns = i64::from(exact::body_amount(&r.p, c[r.key.len()])) + masks;
    read_at(&testvec(1 << r.p[1], table).1, -turns)
}

/// The message of this modulus whose word it is, if it is one's.
pub fn message_carried(carried: u32, modulus: u64) -> Option<u64> {
    let step = (1u64 << 31) / modulus;
    let carried = u64::from(carried);
    (carried % step == 0 && carried / step < modulus).then_some(carried / step)
}
