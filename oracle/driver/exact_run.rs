//! An encrypted run by the exact steps: each wire's ciphertext, gate after gate.

use crate::circuits::Circuit;
use crate::exact;
use crate::sizes::Sizes;

/// What kinds 3 to 12 run. Kind 8 runs xor and negates: the original's xnor is no xnor.
pub const NAMES: [&str; 10] = ["and", "or", "nand", "nor", "xor", "xor", "and_ny", "and_yn", "or_ny", "or_yn"];

pub struct Run {
    /// The wires' ciphertexts, one after another.
    pub wires: Vec<u32>,
    /// What each gate of kind 3 or more switched.
    pub samples: Vec<Vec<u32>>,
    /// The blind rotations that were performed, counted where they are.
    pub rotations: usize,
}

/// The ciphertext of wire w; empty where there is none, as for an operand that a kind does not need.
pub fn cipher<'a>(p: &[u32; 6], wires: &'a [u32], w: usize) -> &'a [u32] {
    let words = p[0] as usize + 1;
    wires.get(w * words..(w + 1) * words).unwrap_or(&[])
}

/// A bit that every key decrypts: masks of 0, and b an eighth of a turn, or for false one more than minus an eighth.
pub fn constant(p: &[u32; 6], bit: bool) -> Vec<u32> {
    let mut out = vec![0; p[0] as usize + 1];
    out[p[0] as usize] = if bit { 1 << 29 } else { 1u32.wrapping_sub(1 << 29) };
    out
}

/// A gate's ciphertext, and what it switched.
pub fn gate(p: &[u32; 6], switching: &[u32], bootstrapping: &[u32], kind: usize, [a, b, c]: [&[u32]; 3]) -> (Vec<u32>, Option<Vec<u32>>) {
    let sample = match kind {
        0 | 1 => return (constant(p, kind == 1), None),
        2 => return (exact::not(a), None),
        13 => exact::both_turned(p, a, b, c, bootstrapping),
        _ => exact::turned(p, NAMES[kind - 3], a, b, bootstrapping),
    };
    let out = exact::switch(p, &sample, switching);
    (if kind == 8 { exact::not(&out) } else { out }, Some(sample))
}

pub fn run(p: &[u32; 6], switching: &[u32], bootstrapping: &[u32], circuit: &Circuit, ins: &[u32]) -> Run {
    let mut out = Run { wires: ins.to_vec(), samples: Vec::new(), rotations: 0 };
    for (kind, operands) in &circuit.gates {
        let one = || gate(p, switching, bootstrapping, *kind, operands.map(|w| cipher(p, &out.wires, w)));
        let ((own, sample), rotations) = exact::counting(one);
        out.wires.extend(own);
        out.samples.extend(sample);
        out.rotations += rotations;
    }
    out
}

/// The work of a circuit, found by running it: how many blind rotations it takes, at the least parameters and on ciphertexts and keys of zeros.
pub fn work(circuit: &Circuit) -> usize {
    let p = [1; 6];
    let s = Sizes::of(&p);
    run(&p, &vec![0; s.switching()], &vec![0; s.bootstrapping()], circuit, &vec![0; circuit.inputs * (s.n + 1)]).rotations
}

/// The outputs' ciphertexts, from the wires'.
pub fn outputs(p: &[u32; 6], circuit: &Circuit, wires: &[u32]) -> Vec<u32> {
    circuit.outputs.iter().flat_map(|&w| cipher(p, wires, w).to_vec()).collect()
}
