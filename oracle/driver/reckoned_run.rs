//! A drift run by the reckoning: each wire's ciphertext and drift, and the drift brought into each rotation, gate after gate. Beside it the short
//! way to a gate's drift, from the phase of its wire alone.

use crate::circuits::{plain_wires, Circuit};
use crate::exact::{self, SUMS};
use crate::exact_run::{self, cipher, NAMES};
use crate::exact_words::testvec;
use crate::reckoning::{carried, centred, inside, word, Reckoner, Whole, EIGHTH};

pub struct Gate {
    pub cipher: Vec<u32>,
    pub drift: Whole,
    /// The drift brought into each of its rotations, in order.
    pub brought: Vec<Whole>,
}

impl Gate {
    /// The brought-in drift that is largest in absolute value, the first at a tie; 0 without a rotation.
    pub fn worst(&self) -> Whole {
        self.brought.iter().fold(0, |worst, b| if b.abs() > worst.abs() { *b } else { worst })
    }
}

pub struct Run {
    /// The wires' ciphertexts, one after another.
    pub wires: Vec<u32>,
    pub drifts: Vec<Whole>,
    pub gates: Vec<Gate>,
    /// The drift brought into every rotation of every gate, and every output's drift.
    pub inside: bool,
}

/// What a gate rotates: the gate's name, and its two operands' places.
fn rotations(kind: usize) -> Vec<(&'static str, usize, usize)> {
    match kind {
        0..=2 => Vec::new(),
        13 => vec![("and", 0, 1), ("and_ny", 0, 2)],
        _ => vec![(NAMES[kind - 3], 0, 1)],
    }
}

/// The operands' drifts by the sum's multiples.
fn multiples(name: &str, a: Whole, b: Whole) -> Whole {
    let (_, x, y, _) = SUMS.into_iter().find(|g| g.0 == name).expect("a gate");
    Whole::from(x) * a + Whole::from(y) * b
}

/// One gate, from its operands' ciphertexts and drifts.
pub fn gate(r: &Reckoner, kind: usize, operands: [&[u32]; 3], drifts: [Whole; 3]) -> Gate {
    let (cipher, sample) = exact_run::gate(&r.p, r.switching, r.bootstrapping, kind, operands);
    let (mut brought, mut extracted) = (Vec::new(), 0);
    for (name, a, b) in rotations(kind) {
        let sum = exact::sum(name, operands[a], operands[b]);
        let rotation = r.rotation(&testvec(&r.p), &sum, multiples(name, drifts[a], drifts[b]));
        brought.push(rotation.brought);
        extracted += rotation.drift;
    }
    let switched = sample.map_or(0, |sample| r.switched(&sample, extracted));
    let drift = centred(match kind {
        0 => 1,
        1 => 0,
        2 => -drifts[0],
        8 => -centred(switched),
        _ => switched,
    });
    Gate { cipher, drift, brought }
}

pub fn run(r: &Reckoner, circuit: &Circuit, ins: &[u32], bits: &[u8]) -> Run {
    let mut out = Run { wires: ins.to_vec(), drifts: Vec::new(), gates: Vec::new(), inside: true };
    for (i, bit) in bits.iter().enumerate() {
        out.drifts.push(r.fresh(cipher(&r.p, ins, i), *bit != 0));
    }
    for (kind, operands) in &circuit.gates {
        let drifts = operands.map(|w| out.drifts.get(w).copied().unwrap_or(0));
        let own = gate(r, *kind, operands.map(|w| cipher(&r.p, &out.wires, w)), drifts);
        out.wires.extend(&own.cipher);
        out.drifts.push(own.drift);
        out.gates.push(own);
    }
    let rotations = out.gates.iter().flat_map(|g| &g.brought);
    out.inside = rotations.chain(circuit.outputs.iter().map(|w| &out.drifts[*w])).all(|drift| inside(*drift));
    out
}

/// The drifts as words.
pub fn words(drifts: &[Whole]) -> Vec<u32> {
    drifts.iter().map(|d| word(*d)).collect()
}

/// The side on which a sum's rounded phase falls: +1 where it is below N steps, modulo 2N, else -1.
fn side(r: &Reckoner, sum: &[u32]) -> Whole {
    let masks: u32 = sum.iter().zip(r.key).map(|(w, s)| s * exact::mask_amount(&r.p, *w)).sum();
    let turns = exact::body_amount(&r.p, sum[r.key.len()]) + masks;
    // the test vector is turned by less the phase
    let steps = (-(turns as i64)).rem_euclid(2 << r.p[1]);
    if steps < 1 << r.p[1] { 1 } else { -1 }
}

/// A gate's drift the short way: the phase of its own wire less what the sides of its rotations say that it carries.
pub fn short_way(r: &Reckoner, kind: usize, operands: [&[u32]; 3], own: &[u32]) -> Option<Whole> {
    let sides: Vec<Whole> = rotations(kind).iter().map(|(name, a, b)| side(r, &exact::sum(name, operands[*a], operands[*b]))).collect();
    let carries = match (kind, &sides[..]) {
        (13, [one, two]) => (one + two + 1) * EIGHTH,
        (8, [one]) => -one * EIGHTH,
        (_, [one]) => one * EIGHTH,
        _ => return None,
    };
    Some(centred(r.level0_phase(own) - carries))
}

/// Where every rotation is inside: whether each wire's phase is ±2^29 by its plain bit plus its drift.
pub fn phases_tell_bits(r: &Reckoner, circuit: &Circuit, run: &Run, bits: &[u8]) -> bool {
    let wires = plain_wires(circuit, bits);
    let phase = |w: usize| r.level0_phase(cipher(&r.p, &run.wires, w));
    wires.iter().zip(&run.drifts).enumerate().all(|(w, (bit, drift))| centred(phase(w) - carried(*bit) - drift) == 0)
}
