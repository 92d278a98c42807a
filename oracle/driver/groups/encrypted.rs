//! Encrypted runs of circuits. Every wire and output word for word against the exact steps, beside the library's single gates and its
//! run gate by gate; with other key rows where no gate looks; with honest keys by decrypted bits. The work that the library tells of the circuit against
//! the blind rotations that the exact steps performed.

use crate::case::{Arg, Routine, Set, Slot};
use crate::circuits::{plain_wires, read, run_plain, valid, Circuit, KINDS};
use crate::compare::{self, Tally};
use crate::draw;
use crate::exact_run::{self, cipher, outputs};
use crate::ffi::encrypted::*;
use crate::ffi::gates::{egl_gates_constant, egl_gates_not};
use crate::honest::Keys;
use crate::junk;
use crate::sizes::Sizes;
use crate::source::Source;
use super::gates::{self, BOOTSTRAPPING, SWITCHING};
use super::work::rotations_are;

const WIRES: Slot = Slot::CiphersOut(Circuit::wires);

fn circuit_of(arg: &Arg) -> Circuit {
    read(arg.b()).ok().expect("a valid circuit")
}

/// Steps of a gate; each of its products clears 1,024 words, however small N is.
fn cost(s: &Sizes) -> usize {
    gates::cost(s) + 4 * s.n * s.l * 1024
}

pub static ROUTINES: [Routine; 2] = [
    Routine {
        name: "circuit_run_encrypted",
        slots: &[SWITCHING, BOOTSTRAPPING, Slot::Circuit, Slot::Ciphers(|c| c.inputs), WIRES, Slot::CiphersOut(|c| c.outputs.len())],
        cost: |s| 8 * cost(s),
        call: egl_circuit_run_encrypted,
        reference: |set, a| {
            let circuit = circuit_of(&a[2]);
            let run = exact_run::run(&set.p, a[0].w(), a[1].w(), &circuit, a[3].w());
            a[5] = Arg::Words(outputs(&set.p, &circuit, &run.wires));
            a[4] = Arg::Words(run.wires);
            true
        },
    },
    Routine {
        name: "circuit_run_gate",
        slots: &[SWITCHING, BOOTSTRAPPING, Slot::Circuit, Slot::Gate, WIRES],
        cost: |s| 2 * cost(s),
        call: egl_circuit_run_gate,
        reference: |set, a| {
            let circuit = circuit_of(&a[2]);
            // no gate of that index: nothing is written
            let Some((kind, operands)) = usize::try_from(a[3].num()).ok().and_then(|g| circuit.gates.get(g)) else { return true };
            let (own, _) = exact_run::gate(&set.p, a[0].w(), a[1].w(), *kind, operands.map(|w| cipher(&set.p, a[4].w(), w)));
            let at = (circuit.inputs + a[3].num() as usize) * own.len();
            let mut wires = a[4].w().to_vec();
            wires[at..at + own.len()].copy_from_slice(&own);
            a[4] = Arg::Words(wires);
            true
        },
    },
];

pub fn run(set: &Set, tally: &mut Tally) {
    for r in &ROUTINES {
        compare::run(tally, r, set, 40_000_000, 150);
    }
    let [n, nbit, bgbit, l, basebit, t] = set.p;
    // The same circuits on every machine: those with honest keys are known to have room for their noise.
    let (junk, honest) = match cost(&Sizes::of(&set.p)) {
        0..=100_000 => (200, 0),
        100_001..=200_000 => (80, 0),
        200_001..=1_000_000 => (24, 48),
        1_000_001..=7_000_000 => (2, 4),
        _ => return,
    };
    let mut source = Source::new(crate::SEED, &format!("encrypted {}", set.name));
    for i in 0..junk {
        let keys = junk::keys(&mut source, set.p);
        // every fourth has no gate that looks at a key
        let bytes = draw::small_circuit(&mut source, if i % 4 == 3 { 3 } else { KINDS });
        with_junk(tally, &mut source, &keys, &bytes);
    }
    if (n, nbit) == (1, 1) {
        // the largest circuit, and one of inputs alone, where a gate is cheapest
        for gates in [1024, 0] {
            let keys = junk::keys(&mut source, set.p);
            let bytes = valid(&mut source, KINDS, 256, gates, 64);
            with_junk(tally, &mut source, &keys, &bytes);
        }
    }
    if nbit >= 5 && (n as u64) << (30 - nbit) < 1 << 29 && bgbit * l >= 12 && basebit * t >= 12 {
        with_honest(tally, &mut source, &Keys::new(&mut Source::new(crate::SEED, set.name), set.p), honest);
    }
}

fn with_junk(tally: &mut Tally, source: &mut Source, keys: &Keys, bytes: &[u8]) {
    let inputs = read(bytes).map_or(0, |c| c.inputs);
    let ins = source.words(inputs * (keys.p[0] as usize + 1));
    compare(tally, source, keys, bytes, &ins);
}

/// Each wire and each output decrypts to its plain bit.
fn with_honest(tally: &mut Tally, source: &mut Source, keys: &Keys, count: usize) {
    for _ in 0..count {
        let bytes = draw::small_circuit(source, KINDS);
        let circuit = circuit_of(&Arg::Bytes(bytes.clone()));
        let bits: Vec<u8> = (0..circuit.inputs).map(|_| source.below(2) as u8).collect();
        let ins: Vec<u32> = bits.iter().flat_map(|b| keys.encrypt(source, *b == 1)).collect();
        let (wires, out) = compare(tally, source, keys, &bytes, &ins);
        for (w, meant) in plain_wires(&circuit, &bits).into_iter().enumerate() {
            let got = keys.decrypt(cipher(&keys.p, &wires, w));
            tally.same(got == meant, || format!("run at {:?}: wire {w} decrypts to {got}, meant {meant}", keys.p));
        }
        for (o, meant) in run_plain(&circuit, &bits).into_iter().enumerate() {
            let got = keys.decrypt(cipher(&keys.p, &out, o)) as u8;
            tally.same(got == meant, || format!("run at {:?}: output {o} decrypts to {got}, meant {meant}", keys.p));
        }
    }
}

/// The library's run of a valid circuit; the slices to be written hold other words before.
fn library_run(source: &mut Source, keys: &Keys, bytes: &[u8], ins: &[u32]) -> (u64, Vec<u32>, Vec<u32>) {
    let circuit = circuit_of(&Arg::Bytes(bytes.to_vec()));
    let mut blank = |count: usize| Arg::Words((0..count * (keys.p[0] as usize + 1)).map(|_| source.next() as u32).collect());
    let (wires, out) = (blank(circuit.wires()), blank(circuit.outputs.len()));
    let [switching, bootstrapping, ins] = [&keys.switching, &keys.bootstrapping, ins].map(|x| Arg::Words(x.to_vec()));
    let mut args = [switching, bootstrapping, Arg::Bytes(bytes.to_vec()), ins, wires, out];
    let answer = egl_circuit_run_encrypted(&keys.p, &mut args);
    (answer, args[4].w().to_vec(), args[5].w().to_vec())
}

/// One circuit in every way; gives the wires and outputs of the library's run.
fn compare(tally: &mut Tally, source: &mut Source, keys: &Keys, bytes: &[u8], ins: &[u32]) -> (Vec<u32>, Vec<u32>) {
    let p = &keys.p;
    let circuit = circuit_of(&Arg::Bytes(bytes.to_vec()));
    let model = exact_run::run(p, &keys.switching, &keys.bootstrapping, &circuit, ins);
    let meant = outputs(p, &circuit, &model.wires);

    let (answer, wires, out) = library_run(source, keys, bytes, ins);
    tally.same(answer == 0, || format!("run at {p:?}: answer {answer:#x}"));
    tally.same_words(&wires[..ins.len()], ins, || format!("run at {p:?}: the inputs' wires differ"));
    for (g, (kind, _)) in circuit.gates.iter().enumerate() {
        let own = circuit.inputs + g;
        tally.same_words(cipher(p, &wires, own), cipher(p, &model.wires, own), || format!("run at {p:?}: gate {g} of kind {kind} differs"));
    }
    tally.same_words(&out, &meant, || format!("run at {p:?}: outputs differ"));
    rotations_are(tally, bytes, model.rotations);

    single_gates(tally, keys, &circuit, &model.wires);
    gate_by_gate(tally, source, keys, bytes, &circuit, &model.wires);

    let other = junk::elsewhere(source, keys, &model.samples);
    let again = library_run(source, &other, bytes, ins);
    tally.words += (wires.len() + out.len()) as u64;
    tally.same(again == (0, model.wires, meant), || format!("run at {p:?}: other words where key rows differ that no gate uses"));
    (wires, out)
}

/// The library's own gates, one by one, on the wires of the run.
fn single_gates(tally: &mut Tally, keys: &Keys, circuit: &Circuit, wires: &[u32]) {
    let p = &keys.p;
    let short = |call: fn(&[u32; 6], &mut [Arg]) -> u64, first: Arg| {
        let mut args = [first, Arg::Words(vec![0xAAAA_AAAA; p[0] as usize + 1])];
        (call(p, &mut args) == 0).then(|| args[1].w().to_vec())
    };
    let not = |x: &[u32]| short(egl_gates_not, Arg::Words(x.to_vec()));
    for (g, (kind, operands)) in circuit.gates.iter().enumerate() {
        let [a, b, c] = operands.map(|w| cipher(p, wires, w));
        let got = match kind {
            0 | 1 => short(egl_gates_constant, Arg::Num(*kind as u64)),
            2 => not(a),
            8 => gates::library(p, "xor", &[a, b], keys).and_then(|x| not(&x)),
            13 => gates::library(p, "mux", &[a, b, c], keys),
            _ => gates::library(p, exact_run::NAMES[kind - 3], &[a, b], keys),
        };
        let own = cipher(p, wires, circuit.inputs + g);
        tally.same_words(&got.unwrap_or_default(), own, || format!("single gate at {p:?}: gate {g} of kind {kind} differs"));
    }
}

/// Each gate of the run by a call of its own: it writes its wire and no other word. Then one that the circuit has not.
fn gate_by_gate(tally: &mut Tally, source: &mut Source, keys: &Keys, bytes: &[u8], circuit: &Circuit, wires: &[u32]) {
    let (p, words) = (&keys.p, keys.p[0] as usize + 1);
    let mut want: Vec<u32> = wires[..circuit.inputs * words].to_vec();
    want.extend((want.len()..wires.len()).map(|_| source.next() as u32));
    let [switching, bootstrapping, lent] = [&keys.switching, &keys.bootstrapping, &want].map(|x| Arg::Words(x.to_vec()));
    let mut args = [switching, bootstrapping, Arg::Bytes(bytes.to_vec()), Arg::Num(0), lent];
    let gates = circuit.gates.len();
    for g in (0..gates as u64).chain([source.of(&[gates as u64, gates as u64 + 1, 1 << 32, u64::MAX])]) {
        args[3] = Arg::Num(g);
        let answer = egl_circuit_run_gate(p, &mut args);
        if g < gates as u64 {
            let own = (circuit.inputs + g as usize) * words..(circuit.inputs + g as usize + 1) * words;
            want[own.clone()].copy_from_slice(&wires[own]);
        }
        tally.words += want.len() as u64;
        tally.same(answer == 0 && args[4].w() == want, || format!("gate by gate at {p:?}: gate {g} of {gates} differs (answer {answer:#x})"));
    }
}
