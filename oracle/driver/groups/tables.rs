//! Lookup tables: test vectors at every N, any words in any slice against the exact steps and the reckoning. Refusals are in `tables_refusals`, messages and the drifts
//! that they bring in and leave in `tables_messages`, the original's own rotation of a lent vector in `tables_original`.

use crate::case::{Arg, Kind, Routine, Set, Slot};
use crate::compare::{self, Tally};
use crate::draw::{MODULI, OTHER_MODULI};
use crate::exact;
use crate::ffi::tables::*;
use crate::lookup_tables as model;
use crate::reckoning::{word, Reckoner, Whole};
use crate::sizes::Sizes;
use crate::source::Source;
use crate::table::carries;
use super::{tables_messages, tables_original, tables_refusals};

const C: Slot = Slot::In(Kind::Words, |s| s.n + 1);
const OUT: Slot = Slot::Out(Kind::Words, |s| s.n + 1);
const RING: Slot = Slot::In(Kind::Words, |s| s.ring);
const RING_OUT: Slot = Slot::Out(Kind::Words, |s| s.ring);
const SWITCHING: Slot = Slot::In(Kind::Words, |s| s.switching());
const BOOTSTRAPPING: Slot = Slot::In(Kind::Words, |s| s.bootstrapping());

/// Steps of a rotation; each of its products clears 1,024 words, however small N is.
pub fn rotation_cost(s: &Sizes) -> usize {
    s.n * 4 * s.l * (1024 + s.ring * s.ring) + 200
}

pub fn lookup_cost(s: &Sizes) -> usize {
    rotation_cost(s) + 4 * s.ring * s.t * s.n + 2 * s.switching()
}

/// The reckoning's products are whole-number ones.
pub fn drift_cost(s: &Sizes) -> usize {
    lookup_cost(s) + 6 * rotation_cost(s)
}

pub static ROUTINES: [Routine; 4] = [
    Routine {
        name: "table_testvec",
        slots: &[Slot::TableModulus, Slot::Table, RING_OUT, RING_OUT],
        cost: |s| 1000 + 20 * s.ring,
        call: egl_table_testvec,
        reference: |set, a| {
            let (x, y) = model::testvec(1 << set.p[1], a[1].w());
            (a[2], a[3]) = (Arg::Words(x), Arg::Words(y));
            true
        },
    },
    Routine {
        name: "trgsw_blind_rotate_with_testvec",
        slots: &[C, RING, RING, BOOTSTRAPPING, RING_OUT, RING_OUT],
        cost: rotation_cost,
        call: egl_trgsw_blind_rotate_with_testvec,
        reference: |set, a| {
            let (x, y) = exact::blind_rotate_of(&set.p, a[0].w(), (a[1].w(), a[2].w()), a[3].w());
            (a[4], a[5]) = (Arg::Words(x), Arg::Words(y));
            true
        },
    },
    Routine {
        name: "lookup",
        slots: &[Slot::TableModulus, Slot::Table, C, SWITCHING, BOOTSTRAPPING, OUT],
        cost: lookup_cost,
        call: egl_lookup,
        reference: |set, a| {
            a[5] = Arg::Words(model::lookup(&set.p, a[1].w(), a[2].w(), a[3].w(), a[4].w()));
            true
        },
    },
    Routine {
        name: "lookup_drift",
        slots: &[
            Slot::TableModulus,
            Slot::Table,
            Slot::Modulus,
            Slot::Number(64),
            SWITCHING,
            BOOTSTRAPPING,
            Slot::Key(|s| s.n),
            Slot::Key(|s| s.ring),
            C,
            OUT,
            Slot::Out(Kind::Words, |_| 2),
            Slot::Value,
        ],
        cost: drift_cost,
        call: egl_lookup_drift,
        reference: |set, a| {
            let r = Reckoner::new(set.p, a[6].w(), a[7].w(), a[4].w(), a[5].w());
            let looked = model::reckoned(&r, a[1].w(), a[2].num(), a[3].num(), a[8].w());
            let drifts = vec![word(looked.brought), word(looked.drift)];
            (a[9], a[10], a[11]) = (Arg::Words(looked.out), Arg::Words(drifts), Arg::Num(looked.inside as u64));
            true
        },
    },
];

pub fn run(set: &Set, tally: &mut Tally) {
    for r in &ROUTINES {
        compare::run(tally, r, set, 20_000_000, 150);
    }
    let mut source = Source::new(crate::SEED, &format!("tables {}", set.name));
    let stated = super::stated("EGL_LOOKUP_DRIFTS");
    tally.same(stated == Some(2), || format!("EGL_LOOKUP_DRIFTS is {stated:?} in the header, wanted 2"));
    every_ring(tally, &mut source, set);
    tables_refusals::run(tally, &mut source, set);
    tables_messages::run(tally, &mut source, set);
    tables_original::run(tally, &mut source, set);
}

/// The test vector at every N, of every modulus that fits and of those that do not.
fn every_ring(tally: &mut Tally, source: &mut Source, set: &Set) {
    for nbit in 1..=10 {
        let mut p = set.p;
        p[1] = nbit;
        for modulus in MODULI.into_iter().chain(OTHER_MODULI).filter(|m| *m <= 1 << 16) {
            let table = source.words(modulus as usize);
            let mut blank = || Arg::Words((0..1 << nbit).map(|_| source.next() as u32).collect());
            let args = vec![Arg::Num(modulus), Arg::Words(table.clone()), blank(), blank()];
            let at = Set { name: set.name, p, original: None, groups: &[] };
            tally.check(&ROUTINES[0], &at, &p, args.clone());
            if carries(1 << nbit, modulus) {
                around_each_message(tally, &p, &table, args);
            }
        }
    }
}

/// What a vector is for: half a message's width on either side of each message's own place stands its word, below 0 as above N with X^N as -1.
fn around_each_message(tally: &mut Tally, p: &[u32; 6], table: &[u32], mut args: Vec<Arg>) {
    let answer = egl_table_testvec(p, &mut args);
    let (n, m) = (1i64 << p[1], table.len() as i64);
    let own = |i: i64, at: i64| word(model::read_at(args[3].w(), at)) == word(if i < m { Whole::from(table[i as usize]) } else { -Whole::from(table[(i - m) as usize]) });
    let same = answer == 0 && (0..2 * m).all(|i| (-n / (2 * m)..n / (2 * m)).all(|off| own(i, i * n / m + off)));
    tally.same(same, || format!("test vector of {m} words at {p:?}: a place about a message's does not have its word"));
}
