//! Encrypted runs of the same work: it counts blind rotations, so they should take as long as each other, whatever their gates.

use crate::library::{self, Lent};
use crate::measure::{table, way};
use crate::{words, N, ROWS, SET};
use std::hint::black_box;

/// Three inputs; a nand of the first two, and a nand of that and the third.
const TWO_NANDS: [u8; 29] = [b'E', b'G', b'L', 1, 0, 3, 0, 2, 0, 1, 0, 5, 0, 0, 0, 1, 0, 0, 0, 5, 0, 3, 0, 2, 0, 0, 0, 4, 0];

/// Three inputs, and a mux of them.
const ONE_MUX: [u8; 21] = [b'E', b'G', b'L', 1, 0, 3, 0, 1, 0, 1, 0, 13, 0, 0, 0, 1, 0, 2, 0, 3, 0];

pub fn run() {
    assert!(library::work(&TWO_NANDS) == 2 && library::work(&ONE_MUX) == 2, "another work");
    let n = SET[0] as usize;
    // what keys and ciphertexts hold decides only how many rows a switching subtracts
    let (key, switching, ins) = (words(n * 12 * N, 9), words(ROWS * (n + 1), 11), words(3 * (n + 1), 13));
    let run = |circuit: &[u8], wires: usize| {
        let (mut wires, mut out) = (vec![0; wires * (n + 1)], vec![0; n + 1]);
        library::run_encrypted(black_box(&SET), Lent { keys: black_box([&switching, &key]), circuit: black_box(circuit), ins: black_box(&ins), wires: &mut wires, out: &mut out });
        black_box(out);
    };
    let ways = vec![way("encrypted run, two nands", || run(&TWO_NANDS, 5)), way("encrypted run, a mux", || run(&ONE_MUX, 4))];
    table("Runs of work 2 at the 128-bit set; bar: a mux 0.95 to 1.05 of two nands", ways, 5, "encrypted run, two nands");
}
