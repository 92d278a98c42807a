//! Drift runs against the reckoning in whole numbers: any words in any slice, refusals in order, single words. Random circuits are in `drift_circuits`.

use crate::case::{Arg, Kind, Routine, Set, Slot};
use crate::circuits::{read, Circuit};
use crate::compare::{self, Tally};
use crate::exact_run::{cipher, outputs};
use crate::ffi::drift::*;
use crate::reckoned_run::{self, words};
use crate::reckoning::{centred, inside, word, Reckoner, Whole};
use crate::sizes::Sizes;
use crate::source::Source;
use super::drift_circuits;
use super::gates::{self, BOOTSTRAPPING, SWITCHING};

const KEY: Slot = Slot::Key(|s| s.n);
const RING_KEY: Slot = Slot::Key(|s| s.ring);
const WIRES: Slot = Slot::CiphersOut(Circuit::wires);
const DRIFTS: Slot = Slot::WordsOut(Circuit::wires);

fn circuit_of(bytes: &[u8]) -> Circuit {
    read(bytes).ok().expect("a valid circuit")
}

/// The reckoning for a case's arguments: both keys' material, both secret keys.
fn reckoner<'a>(p: &[u32; 6], a: &'a [Arg]) -> Reckoner<'a> {
    Reckoner::new(*p, a[2].w(), a[3].w(), a[0].w(), a[1].w())
}

/// Steps of a gate's reckoning, whose products are whole-number ones.
fn cost(s: &Sizes) -> usize {
    gates::cost(s) + 4 * s.n * s.l * (1024 + 6 * s.ring * s.ring)
}

pub static ROUTINES: [Routine; 3] = [
    Routine {
        name: "drift_run",
        slots: &[
            SWITCHING,
            BOOTSTRAPPING,
            KEY,
            RING_KEY,
            Slot::Circuit,
            Slot::Ciphers(|c| c.inputs),
            Slot::BytesOf(|c| c.inputs),
            WIRES,
            Slot::CiphersOut(|c| c.outputs.len()),
            DRIFTS,
            Slot::Value,
        ],
        cost: |s| 8 * cost(s),
        call: egl_drift_run,
        reference: |set, a| {
            let circuit = circuit_of(a[4].b());
            let run = reckoned_run::run(&reckoner(&set.p, a), &circuit, a[5].w(), a[6].b());
            a[10] = Arg::Num(run.inside as u64);
            a[9] = Arg::Words(words(&run.drifts));
            a[8] = Arg::Words(outputs(&set.p, &circuit, &run.wires));
            a[7] = Arg::Words(run.wires);
            true
        },
    },
    Routine {
        name: "drift_gate",
        slots: &[SWITCHING, BOOTSTRAPPING, KEY, RING_KEY, Slot::Circuit, Slot::Gate, WIRES, DRIFTS, Slot::Value],
        cost: |s| 2 * cost(s),
        call: egl_drift_gate,
        reference: |set, a| {
            let circuit = circuit_of(a[4].b());
            let g = a[5].num();
            // no gate of that index: nothing is written
            let Some((kind, operands)) = usize::try_from(g).ok().and_then(|g| circuit.gates.get(g)) else {
                a[8] = Arg::Num(0);
                return true;
            };
            // the drifts before it are whatever words the caller lends
            let drifts = operands.map(|w| a[7].w().get(w).map_or(0, |d| centred(Whole::from(*d))));
            let own = reckoned_run::gate(&reckoner(&set.p, a), *kind, operands.map(|w| cipher(&set.p, a[6].w(), w)), drifts);
            let (at, n) = (circuit.inputs + g as usize, own.cipher.len());
            let (mut wires, mut drifts) = (a[6].w().to_vec(), a[7].w().to_vec());
            wires[at * n..(at + 1) * n].copy_from_slice(&own.cipher);
            drifts[at] = word(own.drift);
            (a[6], a[7], a[8]) = (Arg::Words(wires), Arg::Words(drifts), Arg::Num(word(own.worst()) as u64));
            true
        },
    },
    Routine {
        name: "fresh_drift",
        slots: &[KEY, Slot::In(Kind::Words, |s| s.n + 1), Slot::Number(8), Slot::Value],
        cost: |s| 3000 + 20 * s.n,
        call: egl_fresh_drift,
        reference: |set, a| {
            let drift = Reckoner::new(set.p, a[0].w(), &[], &[], &[]).fresh(a[1].w(), a[2].num() != 0);
            a[3] = Arg::Num(word(drift) as u64);
            true
        },
    },
];

pub fn run(set: &Set, tally: &mut Tally) {
    for r in &ROUTINES {
        compare::run(tally, r, set, 20_000_000, 150);
    }
    let mut source = Source::new(crate::SEED, &format!("drift {}", set.name));
    told_inside(tally, &mut source);
    drift_circuits::run(tally, &mut source, &set.p);
}

/// `inside` of single words: at its limits, and any.
fn told_inside(tally: &mut Tally, source: &mut Source) {
    let limits = [0, 1 << 29, 1 << 31, 7 << 29, u32::MAX, 1 << 30, 3 << 30].into_iter();
    let around: Vec<u32> = limits.flat_map(|w: u32| [w.wrapping_sub(1), w, w.wrapping_add(1)]).collect();
    let any: Vec<u32> = (0..200).map(|_| source.word()).collect();
    for w in around.into_iter().chain(any) {
        // the word stands in the low half; a function that gives a word leaves the other one open
        let got = egl_drift_inside(&mut [Arg::Num(w as u64)]) as u32;
        let want = inside(centred(Whole::from(w))) as u32;
        tally.same(got == want, || format!("inside of {w:#x}: {got}, wanted {want}"));
    }
}
