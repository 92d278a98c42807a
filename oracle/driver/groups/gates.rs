//! The gates: with junk keys word for word against the exact steps (and against the
//! original where its transform is exact), with honest keys by decrypted bits as well.

use crate::case::{Arg, Kind, Routine, Set, Slot};
use crate::compare::{self, Tally};
use crate::exact;
use crate::exact_run;
use crate::exact_words::agreed;
use crate::ffi::gates::*;
use crate::honest::Keys;
use crate::layout;
use crate::sizes::Sizes;
use crate::source::Source;
use oracle_api::Cloud;
use super::fine;

const C: Slot = Slot::In(Kind::Words, |s| s.n + 1);
const OUT: Slot = Slot::Out(Kind::Words, |s| s.n + 1);
pub const SWITCHING: Slot = Slot::In(Kind::Words, |s| s.switching());
pub const BOOTSTRAPPING: Slot = Slot::In(Kind::Words, |s| s.bootstrapping());

/// Steps of a gate with one rotation.
pub fn cost(s: &Sizes) -> usize {
    s.n * (4 * s.l * s.ring * s.ring + 8 * s.l * s.ring) + 4 * s.ring * s.t * s.n + 2 * s.switching() + 200
}

macro_rules! two {
    ($name:literal, $call:ident, $gate:literal) => {
        Routine { name: $name, slots: &[C, C, SWITCHING, BOOTSTRAPPING, OUT], cost, call: $call, reference: |set, a| {
            a[4] = Arg::Words(exact::gate(&set.p, $gate, a[0].w(), a[1].w(), a[2].w(), a[3].w()));
            true
        } }
    };
}

macro_rules! three {
    ($name:literal, $call:ident, $gate:ident) => {
        Routine { name: $name, slots: &[C, C, C, SWITCHING, BOOTSTRAPPING, OUT], cost: |s| 3 * cost(s), call: $call, reference: |set, a| {
            a[5] = Arg::Words(exact::$gate(&set.p, a[0].w(), a[1].w(), a[2].w(), a[3].w(), a[4].w()));
            true
        } }
    };
}

pub static ROUTINES: [Routine; 15] = [
    two!("gates_nand", egl_gates_nand, "nand"),
    two!("gates_or", egl_gates_or, "or"),
    two!("gates_and", egl_gates_and, "and"),
    two!("gates_nor", egl_gates_nor, "nor"),
    two!("gates_and_ny", egl_gates_and_ny, "and_ny"),
    two!("gates_and_yn", egl_gates_and_yn, "and_yn"),
    two!("gates_or_ny", egl_gates_or_ny, "or_ny"),
    two!("gates_or_yn", egl_gates_or_yn, "or_yn"),
    two!("gates_xor", egl_gates_xor, "xor"),
    two!("gates_xnor", egl_gates_xnor, "xnor"),
    three!("gates_mux", egl_gates_mux, mux),
    three!("gates_mux_naive", egl_gates_mux_naive, mux_naive),
    Routine {
        name: "gates_not",
        slots: &[C, OUT],
        cost: |s| 100 + 4 * s.n,
        call: egl_gates_not,
        reference: |set, a| {
            a[1] = Arg::Words(agreed(set.original.map(|o| o.not(a[0].w())), exact::not(a[0].w())));
            true
        },
    },
    Routine {
        name: "gates_copy",
        slots: &[C, OUT],
        cost: |s| 100 + 4 * s.n,
        call: egl_gates_copy,
        reference: |set, a| {
            a[1] = Arg::Words(agreed(set.original.map(|o| o.copy(a[0].w())), a[0].w().to_vec()));
            true
        },
    },
    Routine {
        name: "gates_constant",
        slots: &[Slot::Number(32), OUT],
        cost: |s| 1000 + 4 * s.n,
        call: egl_gates_constant,
        reference: |set, a| {
            let bit = a[0].num() != 0;
            a[1] = Arg::Words(agreed(set.original.map(|o| o.constant(bit)), exact_run::constant(&set.p, bit)));
            true
        },
    },
];

/// Calls the library's gate; nothing where it refuses.
pub fn library(p: &[u32; 6], name: &str, inputs: &[&[u32]], keys: &Keys) -> Option<Vec<u32>> {
    let r = ROUTINES.iter().find(|r| r.name.strip_prefix("gates_") == Some(name)).unwrap();
    let mut args: Vec<Arg> = inputs.iter().map(|x| Arg::Words(x.to_vec())).collect();
    args.push(Arg::Words(keys.switching.clone()));
    args.push(Arg::Words(keys.bootstrapping.clone()));
    args.push(Arg::Words(vec![0xAAAA_AAAA; p[0] as usize + 1]));
    let answer = (r.call)(p, &mut args);
    (answer == 0).then(|| args.last().unwrap().w().to_vec())
}

pub fn run(set: &Set, tally: &mut Tally) {
    for r in &ROUTINES {
        compare::run(tally, r, set, 6_000_000, 100);
    }
    let [n, nbit, bgbit, l, basebit, t] = set.p;
    let cost = cost(&Sizes::of(&set.p));
    if fine(&set.p) && cost < 1_000_000_000 / compare::SLOW {
        junk(set, tally, (40_000_000 / compare::SLOW / cost).clamp(1, 40));
    }
    // Where steps of the rotation, digits and switching are fine enough for honest keys.
    let precise = nbit >= 5 && (n as u64) << (30 - nbit) < 1 << 29 && bgbit * l >= 12 && basebit * t >= 12;
    if precise || (n == 700 && nbit == 10) {
        honest(set, tally, cost);
    }
}

/// Every gate with keys that hold junk, against the original's own path.
fn junk(set: &Set, tally: &mut Tally, count: usize) {
    let Some(o) = set.original else { return };
    let s = Sizes::of(&set.p);
    let mut source = Source::new(crate::SEED, &format!("junk {}", set.name));
    for _ in 0..count {
        let mut words = |len: usize| -> Vec<u32> { (0..len).map(|_| source.next() as u32).collect() };
        let (key_lv0, key_lv1) = (Vec::new(), Vec::new());
        let keys = Keys { p: set.p, key_lv0, key_lv1, switching: words(s.switching()), bootstrapping: words(s.bootstrapping()) };
        let (a, b, c) = (words(s.n + 1), words(s.n + 1), words(s.n + 1));
        let cloud = layout::cloud(o, &keys.switching, &keys.bootstrapping);
        for (name, ..) in exact::SUMS {
            let got = library(&set.p, name, &[&a, &b], &keys);
            tally.same(got == Some(cloud.gate(name, &a, &b, &c)), || format!("{name} with junk keys and the original"));
        }
        for name in ["mux", "mux_naive"] {
            let got = library(&set.p, name, &[&a, &b, &c], &keys);
            tally.same(got == Some(cloud.gate(name, &a, &b, &c)), || format!("{name} with junk keys and the original"));
        }
    }
}

/// Every gate with honest keys: the library's, the original's and the meant bit. On all
/// inputs where that is cheap; else on one pair each; at the full set four gates, or one
/// under an emulator.
fn honest(set: &Set, tally: &mut Tally, cost: usize) {
    const DEAR: usize = 1_000_000_000;
    let cheap = cost <= DEAR / compare::SLOW;
    let wanted = |g: usize, pair: usize| match cost {
        _ if cheap => true,
        0..=DEAR => pair == g % 4,
        _ if compare::SLOW == 1 => g % 3 == 0 && pair == g / 3,
        _ => g == 0 && pair == 0,
    };
    let mut source = Source::new(crate::SEED, &format!("honest {}", set.name));
    let keys = Keys::new(&mut source, set.p);
    let cloud = set.original.map(|o| layout::cloud(o, &keys.switching, &keys.bootstrapping));
    for (g, (name, ..)) in exact::SUMS.into_iter().enumerate() {
        for pair in (0..4).filter(|pair| wanted(g, *pair)) {
            let bits = [pair & 1 == 1, pair & 2 == 2];
            decrypted(tally, &mut source, &keys, cloud.as_deref(), name, &bits, exact::meaning(name, bits[0], bits[1]));
        }
    }
    for three in (0..8).filter(|_| cheap) {
        let bits = [three & 1 == 1, three & 2 == 2, three & 4 == 4];
        let meant = if bits[0] { bits[1] } else { bits[2] };
        decrypted(tally, &mut source, &keys, cloud.as_deref(), "mux", &bits, meant);
        decrypted(tally, &mut source, &keys, cloud.as_deref(), "mux_naive", &bits, meant);
    }
}

fn decrypted(tally: &mut Tally, source: &mut Source, keys: &Keys, cloud: Option<&dyn Cloud>, name: &str, bits: &[bool], meant: bool) {
    let inputs: Vec<Vec<u32>> = bits.iter().map(|b| keys.encrypt(source, *b)).collect();
    let lent: Vec<&[u32]> = inputs.iter().map(Vec::as_slice).collect();
    let got = library(&keys.p, name, &lent, keys);
    let bit = got.as_ref().map(|c| keys.decrypt(c));
    tally.same(bit == Some(meant), || format!("{name} {bits:?} decrypts to {bit:?}, meant {meant}"));
    if let Some(cloud) = cloud {
        let theirs = cloud.gate(name, lent[0], lent[1], lent.get(2).unwrap_or(&lent[0]));
        tally.same(bit == Some(keys.decrypt(&theirs)), || format!("{name} {bits:?}: another bit than the original's"));
        if got != Some(theirs) {
            tally.remark("words that differ from the transform's, bits alike");
        }
    }
}
