//! Rotation by X^k and the rounding of words to amounts: rotation word for word against the
//! original at every amount, amounts against their definition (the original rounds inside its
//! blind rotation, which the group trgsw compares).

use crate::case::{Arg, Kind, Routine, Set, Slot};
use crate::compare::{self, Tally};
use crate::exact;
use crate::exact_words::agreed;
use crate::ffi::rotation::*;
use crate::source::Source;

const RING: Slot = Slot::In(Kind::Words, |s| s.ring);
const OUT: Slot = Slot::Out(Kind::Words, |s| s.ring);

pub static ROUTINES: [Routine; 3] = [
    Routine {
        name: "trgsw_poly_mul_with_x_k",
        slots: &[RING, Slot::Index(32, |s| 2 * s.ring), OUT],
        cost: |s| 100 + 4 * s.ring,
        call: egl_trgsw_poly_mul_with_x_k,
        reference: |set, a| {
            let k = a[1].num() as usize;
            let theirs = set.original.map(|o| o.poly_mul_with_x_k(a[0].w(), k));
            a[2] = Arg::Words(agreed(theirs, exact::rotated(a[0].w(), k)));
            true
        },
    },
    Routine {
        name: "trgsw_mask_amount",
        slots: &[Slot::Number(32), Slot::Value],
        cost: |_| 100,
        call: egl_trgsw_mask_amount,
        reference: |set, a| {
            a[1] = Arg::Num(exact::mask_amount(&set.p, a[0].num() as u32) as u64);
            true
        },
    },
    Routine {
        name: "trgsw_body_amount",
        slots: &[Slot::Number(32), Slot::Value],
        cost: |_| 100,
        call: egl_trgsw_body_amount,
        reference: |set, a| {
            a[1] = Arg::Num(exact::body_amount(&set.p, a[0].num() as u32) as u64);
            true
        },
    },
];

pub fn run(set: &Set, tally: &mut Tally) {
    for r in &ROUTINES {
        compare::run(tally, r, set, 20_000_000, 200);
    }
    every_amount(set, tally);
    examples(set, tally);
}

/// Rotation by every amount from 0 to 2N, and the first amounts past it.
fn every_amount(set: &Set, tally: &mut Tally) {
    let r = ROUTINES.iter().find(|r| r.name == "trgsw_poly_mul_with_x_k").unwrap();
    let mut source = Source::new(crate::SEED, set.name);
    let n = 1usize << set.p[1];
    for k in 0..=2 * n as u64 + 3 {
        let a = (0..n).map(|_| source.next() as u32).collect();
        let out = (0..n).map(|_| source.next() as u32).collect();
        tally.check(r, set, &set.p, vec![Arg::Words(a), Arg::Num(k), Arg::Words(out)]);
    }
}

/// Document 01's worked examples.
fn examples(set: &Set, tally: &mut Tally) {
    let word = |f: fn(&[u32; 6], &mut [Arg]) -> u64, x: u32| f(&set.p, &mut [Arg::Num(x as u64)]);
    if set.p[1] == 10 {
        for (x, want) in [(0, 2048u64), (0xFFF0_0000, 0), (0xFFEF_FFFF, 1)] {
            tally.same(word(egl_trgsw_body_amount, x) == want << 32, || format!("document 01: b's amount of {x:#x}"));
        }
        tally.same(word(egl_trgsw_mask_amount, 0xFFF0_0000) == 0, || "document 01: a mask's amount".into());
    }
    if set.p[1] == 2 {
        let a = [1u32, 2, 3, 4];
        let comp = a.map(|x| !x).to_vec();
        for (k, want) in [(1, vec![0xFFFF_FFFB, 1, 2, 3]), (7, vec![2, 3, 4, 0xFFFF_FFFE]), (4, comp), (8, a.to_vec())] {
            let mut args = [Arg::Words(a.to_vec()), Arg::Num(k), Arg::Words(vec![0; 4])];
            let answer = egl_trgsw_poly_mul_with_x_k(&set.p, &mut args);
            tally.same(answer == 0 && args[2].w() == want, || format!("document 01: rotation by {k}"));
            if let Some(o) = set.original {
                tally.same(o.poly_mul_with_x_k(&a, k as usize) == want, || format!("document 01 and the original: rotation by {k}"));
            }
        }
    }
}
