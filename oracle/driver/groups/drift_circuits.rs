//! Drift runs of random circuits, honest keys and junk, from next to no noise to too much: every word against the reckoning and the encrypted run, the run gate
//! by gate, and demand 3 itself.

use crate::case::Arg;
use crate::circuits::{read, run_plain, valid, Circuit, KINDS};
use crate::compare::Tally;
use crate::exact_run::{cipher, outputs};
use crate::ffi::drift::*;
use crate::ffi::encrypted::egl_circuit_run_encrypted;
use crate::honest::{Keys, Spread};
use crate::reckoned_run::{self, phases_tell_bits, short_way, words, Run};
use crate::reckoning::{inside, word, Reckoner};
use crate::source::Source;
use super::work::rotations_are;

/// Circuits that share their keys.
const LOT: usize = 8;

/// Lots of circuits for each set: 20,000 circuits at NBIT 3 or more over all sets, fewer through the bridge.
const LOTS: usize = if cfg!(bridge) { 12 } else { 150 };

/// The circuits of one set.
pub fn run(tally: &mut Tally, source: &mut Source, p: &[u32; 6]) {
    for lot in 0..LOTS {
        let p = beside(source, p, lot);
        let keys = keys(source, p);
        let r = Reckoner::new(p, &keys.key_lv0, &keys.key_lv1, &keys.switching, &keys.bootstrapping);
        for _ in 0..LOT {
            let tried = Tried::draw(source, &keys);
            compare(tally, source, &keys, &r, &tried);
        }
        tally.same(r.exceptions.get() == 0, || format!("accumulators at {p:?}: {} are not the turned test vector plus the drift", r.exceptions.get()));
        tally.remarks("accumulator that is the turned test vector plus its drift", r.accumulators.get() - r.exceptions.get());
    }
}

/// The set's digits and fields with a small n and N, so that a circuit is quick. Every twelfth lot is at NBIT 1 or 2, where few runs are inside.
fn beside(source: &mut Source, p: &[u32; 6], lot: usize) -> [u32; 6] {
    let nbit = if lot % 12 == 11 { source.of(&[1, 2]) } else { source.of(&[3, 3, 3, 4, 4, 5]) };
    let n = 1 + source.below(p[0].min(6) as u64) as u32;
    [n, nbit, p[2], p[3], p[4], p[5]]
}

/// One lot in three has key material of junk; the others are honest, from next to no noise to so much that no gate is right. A row's noise is multiplied by
/// digits, so at level 1 it goes by their width.
fn keys(source: &mut Source, p: [u32; 6]) -> Keys {
    let level1 = source.of(&[1.0, 6e4, 1e6, 1.6e7, 1.3e8]) / (1u32 << p[2]) as f64;
    let level0 = source.of(&[1.0, 1e3, 8.6e4, 2e6, 3e7]);
    let mut keys = Keys::spread(source, p, Spread { level0, level1 });
    (keys.key_lv0, keys.key_lv1) = match source.below(3) {
        0 => (source.key(keys.key_lv0.len()), source.key(keys.key_lv1.len())),
        _ => return keys,
    };
    (keys.switching, keys.bootstrapping) = (source.words(keys.switching.len()), source.words(keys.bootstrapping.len()));
    keys
}

/// One circuit with its inputs' ciphertexts, and the plain bits that are lent.
struct Tried {
    bytes: Vec<u8>,
    circuit: Circuit,
    ins: Vec<u32>,
    bits: Vec<u8>,
}

impl Tried {
    fn draw(source: &mut Source, keys: &Keys) -> Tried {
        let (inputs, gates) = (source.below(5) as usize, source.below(9) as usize);
        let count = 1 + source.below(3) as usize;
        let bytes = valid(source, KINDS, if gates == 0 { inputs + 1 } else { inputs }, gates, count);
        let circuit = read(&bytes).ok().expect("a valid circuit");
        let deviation = source.of(&[1e3, 4e6, 3e7, 1.3e8]);
        let (mut ins, mut bits) = (Vec::new(), Vec::new());
        for _ in 0..circuit.inputs {
            let bit = source.below(2) == 1;
            ins.extend(input(source, keys, bit, deviation));
            // now and then the other bit is told
            let told = bit != (source.below(16) == 0);
            bits.push(if told { source.of(&[1, 2, 128, 255]) } else { 0 });
        }
        Tried { bytes, circuit, ins, bits }
    }
}

/// A ciphertext of the bit; now and then one whose drift is a limit, or junk.
fn input(source: &mut Source, keys: &Keys, bit: bool, deviation: f64) -> Vec<u32> {
    const LIMITS: [u32; 8] = [(1 << 29) - 1, 1 << 29, (7 << 29) + 1, 7 << 29, 1 << 31, 0, 1, u32::MAX];
    let n = keys.p[0] as usize;
    match source.below(12) {
        0 => source.words(n + 1),
        1 => {
            let mut c = keys.encrypt_spread(source, bit, 0.0);
            c[n] = c[n].wrapping_add(source.of(&LIMITS));
            c
        }
        _ => keys.encrypt_spread(source, bit, deviation),
    }
}

/// One circuit in every way.
fn compare(tally: &mut Tally, source: &mut Source, keys: &Keys, r: &Reckoner, tried: &Tried) {
    let (p, circuit) = (&keys.p, &tried.circuit);
    let model = reckoned_run::run(r, circuit, &tried.ins, &tried.bits);
    let out = outputs(p, circuit, &model.wires);
    let mut blank = |count: usize| Arg::Words((0..count).map(|_| source.next() as u32).collect());
    let (b_wires, b_out, b_drifts) = (blank(model.wires.len()), blank(out.len()), blank(model.drifts.len()));
    let mut args = lent(keys, tried);
    args.extend([Arg::Words(tried.ins.clone()), Arg::Bytes(tried.bits.clone()), b_wires, b_out, b_drifts]);
    let mut plain = vec![args[0].clone(), args[1].clone(), args[4].clone(), args[5].clone(), args[7].clone(), args[8].clone()];

    let answer = egl_drift_run(p, &mut args);
    tally.same(answer == (model.inside as u64) << 32, || format!("drift run at {p:?}: answer {answer:#x}, inside {}", model.inside));
    tally.same_words(args[7].w(), &model.wires, || format!("drift run at {p:?}: wires differ"));
    tally.same_words(args[8].w(), &out, || format!("drift run at {p:?}: outputs differ"));
    for (w, (got, want)) in args[9].w().iter().zip(words(&model.drifts)).enumerate() {
        let kind = w.checked_sub(circuit.inputs).map(|g| circuit.gates[g].0);
        tally.same(*got == want, || format!("drift run at {p:?}: wire {w} (kind {kind:?}) has drift {got:#x}, reckoned {want:#x}"));
    }
    let encrypted = egl_circuit_run_encrypted(p, &mut plain);
    let same = encrypted == 0 && plain[4].w() == args[7].w() && plain[5].w() == args[8].w();
    tally.same(same, || format!("drift run at {p:?}: other words than the encrypted run's"));

    // as many drifts are brought in as there are rotations
    rotations_are(tally, &tried.bytes, model.gates.iter().map(|g| g.brought.len()).sum());

    let told = answer == 1 << 32;
    tally.remark(match (told, model.gates.iter().all(|g| g.brought.is_empty())) {
        (true, false) => "circuit told inside",
        (true, true) => "circuit without a rotation told inside",
        (false, _) => "circuit not told inside",
    });
    if told {
        bits_of(tally, keys, tried, args[8].w());
    }
    in_the_model(tally, r, tried, &model);
    gate_by_gate(tally, source, keys, tried, &model);
    fresh_drifts(tally, keys, tried, &model);
}

fn fresh_drifts(tally: &mut Tally, keys: &Keys, tried: &Tried, model: &Run) {
    for (i, (bit, want)) in tried.bits.iter().zip(words(&model.drifts)).enumerate() {
        let c = cipher(&keys.p, &tried.ins, i).to_vec();
        let got = egl_fresh_drift(&keys.p, &mut [Arg::Words(keys.key_lv0.clone()), Arg::Words(c), Arg::Num(*bit as u64)]);
        tally.same(got == (want as u64) << 32, || format!("fresh drift at {:?}: {got:#x}, reckoned {want:#x}", keys.p));
    }
}

/// Keys and circuit, as a drift run takes them.
fn lent(keys: &Keys, tried: &Tried) -> Vec<Arg> {
    let mut out: Vec<Arg> =
        [&keys.switching, &keys.bootstrapping, &keys.key_lv0, &keys.key_lv1].map(|x| Arg::Words(x.clone())).into_iter().collect();
    out.push(Arg::Bytes(tried.bytes.clone()));
    out
}

/// Demand 3: each output of a run told inside decrypts to its plain bit.
fn bits_of(tally: &mut Tally, keys: &Keys, tried: &Tried, out: &[u32]) {
    for (o, meant) in run_plain(&tried.circuit, &tried.bits).into_iter().enumerate() {
        let got = keys.decrypt(cipher(&keys.p, out, o)) as u8;
        tally.same(got == meant, || format!("drift run at {:?} told inside: output {o} decrypts to {got}, meant {meant}", keys.p));
    }
}

/// The reckoning by its own laws: a gate's drift is what the phase of its wire leaves, whether inside or not; where all rotations are inside, a
/// wire's phase is ±2^29 by its bit plus its drift.
fn in_the_model(tally: &mut Tally, r: &Reckoner, tried: &Tried, model: &Run) {
    let circuit = &tried.circuit;
    for (g, (kind, operands)) in circuit.gates.iter().enumerate() {
        let [own, a, b, c] = [circuit.inputs + g, operands[0], operands[1], operands[2]].map(|w| cipher(&r.p, &model.wires, w));
        if let Some(short) = short_way(r, *kind, [a, b, c], own) {
            let drift = model.gates[g].drift;
            tally.same(short == drift, || format!("reckoning at {:?}: kind {kind} has drift {drift}, by its phase {short}", r.p));
        }
    }
    if model.gates.iter().flat_map(|g| &g.brought).all(|b| inside(*b)) {
        let same = phases_tell_bits(r, circuit, model, &tried.bits);
        tally.same(same, || format!("reckoning at {:?}: all rotations inside, and a phase is not its bit's plus its drift", r.p));
    }
}

/// Each gate by a call of its own: it writes its wire and its drift and no other word, and tells its worst brought-in drift. Then one that the
/// circuit has not.
fn gate_by_gate(tally: &mut Tally, source: &mut Source, keys: &Keys, tried: &Tried, model: &Run) {
    let (p, n, inputs) = (&keys.p, keys.p[0] as usize + 1, tried.circuit.inputs);
    let drifts = words(&model.drifts);
    let mut want = (tried.ins.clone(), drifts[..inputs].to_vec());
    want.0.resize_with(model.wires.len(), || source.next() as u32);
    want.1.resize_with(drifts.len(), || source.next() as u32);
    let mut args = lent(keys, tried);
    args.extend([Arg::Num(0), Arg::Words(want.0.clone()), Arg::Words(want.1.clone())]);
    let gates = model.gates.len();
    for g in (0..gates as u64).chain([source.of(&[gates as u64, gates as u64 + 1, 1 << 32, u64::MAX])]) {
        args[5] = Arg::Num(g);
        let answer = egl_drift_gate(p, &mut args);
        let mut worst = 0;
        if let Some(gate) = usize::try_from(g).ok().and_then(|g| model.gates.get(g)) {
            let own = inputs + g as usize;
            want.0[own * n..(own + 1) * n].copy_from_slice(&gate.cipher);
            want.1[own] = drifts[own];
            worst = word(gate.worst());
        }
        tally.words += (want.0.len() + want.1.len()) as u64;
        let same = answer == (worst as u64) << 32 && args[6].w() == want.0 && args[7].w() == want.1;
        tally.same(same, || format!("gate by gate at {p:?}: gate {g} of {gates} differs (answer {answer:#x}, worst {worst:#x})"));
    }
}
