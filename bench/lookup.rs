//! A lookup beside a gate of two inputs at the same set: each is one blind rotation, an extraction and a switching.

use crate::library;
use crate::measure::{table, way};
use crate::words;
use std::hint::black_box;

const GATE: &str = "nand";
const LOOKUP: &str = "lookup, modulus 8";

/// What a lookup has in its table: any words.
const MODULUS: usize = 8;

/// One set's table. The time does not depend on what keys and ciphertexts hold, but for how many rows a switching subtracts.
fn at(title: &str, set: [u32; 6], rounds: usize) {
    let [n, nbit, _, l, basebit, t] = set.map(|number| number as usize);
    let length = 1 << nbit;
    let (switching, key) = (words(((1 << basebit) - 1) * t * length * (n + 1), 11), words(n * 4 * l * length, 9));
    let (a, b, f) = (words(n + 1, 13), words(n + 1, 14), words(MODULUS, 19));
    let (mut o1, mut o2, mut parts) = (vec![0; n + 1], vec![1; n + 1], vec![2; n + 1]);
    library::lookup(&set, &f, &a, &switching, &key, &mut o2);
    library::lookup_in_parts(&set, &f, &a, &switching, &key, &mut parts);
    assert!(o2 == parts, "a lookup gives other words than its parts");
    let ways = vec![
        way(GATE, || library::nand(black_box(&set), black_box(&a), black_box(&b), black_box(&switching), black_box(&key), &mut o1)),
        way(LOOKUP, || library::lookup(black_box(&set), black_box(&f), black_box(&a), black_box(&switching), black_box(&key), &mut o2)),
    ];
    table(title, ways, rounds, GATE);
}

pub fn run() {
    at("A lookup at a small set, n 20 and N 128; bar: at most 1.02 of a gate", [20, 7, 7, 3, 3, 5], 500);
    at("A lookup at the 128-bit set; bar: at most 1.02 of a gate", crate::SET, 8);
    at("A lookup at the set Uint4; bar: at most 1.02 of a gate", [820, 10, 22, 1, 5, 3], 8);
}
