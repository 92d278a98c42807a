//! TRGSW, word for word: key generation, decomposition, switching against document 01's words and the original; the external product, cmux and blind rotation
//! against the exact steps, and where the original's transform is exact (`fine`) against it too.

use crate::case::{Arg, Kind, Routine, Set, Slot};
use crate::compare::{self, Tally};
use crate::exact;
use crate::exact_words::{self, agreed};
use crate::ffi::trgsw::*;
use crate::layout;
use crate::sizes::Sizes;
use crate::source::Source;
use super::fine;

const RING: Slot = Slot::In(Kind::Words, |s| s.ring);
const OUT: Slot = Slot::Out(Kind::Words, |s| s.ring);
const KEY0: Slot = Slot::Key(|s| s.n);
const KEY1: Slot = Slot::Key(|s| s.ring);
const ROWS: Slot = Slot::In(Kind::Words, |s| s.rows());
const BOOTSTRAPPING: Slot = Slot::In(Kind::Words, |s| s.bootstrapping());
const WORD: Slot = Slot::Number(32);

/// Steps of an external product.
fn product_cost(s: &Sizes) -> usize {
    4 * s.l * s.ring * s.ring + 8 * s.l * s.ring + 100
}

fn pair(a: &mut [Arg], at: usize, (x, y): exact::Pair) -> bool {
    (a[at], a[at + 1]) = (Arg::Words(x), Arg::Words(y));
    true
}

pub static ROUTINES: [Routine; 8] = [
    Routine {
        name: "trgsw_encrypt_torus",
        slots: &[
            WORD,
            Slot::In(Kind::Words, |s| 2 * s.l * s.ring),
            Slot::In(Kind::Words, |s| 2 * s.l * s.ring),
            KEY1,
            Slot::Out(Kind::Words, |s| s.rows()),
        ],
        cost: |s| 2 * product_cost(s),
        call: egl_trgsw_encrypt_torus,
        reference: |set, a| {
            let m = a[0].num() as u32;
            let theirs = set.original.map(|o| o.encrypt_torus(m, a[1].w(), a[2].w(), a[3].w()));
            a[4] = Arg::Words(agreed(theirs, exact_words::torus_rows(&set.p, m, a[1].w(), a[2].w(), a[3].w())));
            true
        },
    },
    Routine {
        name: "trgsw_gen_bootstrapping_key",
        slots: &[
            KEY0,
            KEY1,
            Slot::In(Kind::Words, |s| s.bootstrapping() / 2),
            Slot::In(Kind::Words, |s| s.bootstrapping() / 2),
            Slot::Out(Kind::Words, |s| s.bootstrapping()),
        ],
        cost: |s| 4 * s.n * product_cost(s),
        call: egl_trgsw_gen_bootstrapping_key,
        reference: |set, a| {
            let theirs = set.original.map(|o| o.gen_bootstrapping_key(a[0].w(), a[1].w(), a[2].w(), a[3].w()));
            a[4] = Arg::Words(agreed(theirs, exact_words::bootstrapping_key(&set.p, a[0].w(), a[1].w(), a[2].w(), a[3].w())));
            true
        },
    },
    Routine {
        name: "trgsw_decomposition",
        slots: &[RING, RING, Slot::Out(Kind::Words, |s| 2 * s.l * s.ring)],
        cost: |s| 100 + 10 * s.l * s.ring,
        call: egl_trgsw_decomposition,
        reference: |set, a| {
            let theirs = set.original.map(|o| o.decomposition(a[0].w(), a[1].w()));
            a[2] = Arg::Words(agreed(theirs, exact::decomposition(&set.p, a[0].w(), a[1].w())));
            true
        },
    },
    Routine {
        name: "trgsw_external_product",
        slots: &[ROWS, RING, RING, OUT, OUT],
        cost: product_cost,
        call: egl_trgsw_external_product,
        reference: |set, a| {
            let want = exact::external(&set.p, a[0].w(), a[1].w(), a[2].w());
            pair(a, 3, want)
        },
    },
    Routine {
        name: "trgsw_cmux",
        slots: &[RING, RING, RING, RING, ROWS, OUT, OUT],
        cost: product_cost,
        call: egl_trgsw_cmux,
        reference: |set, a| {
            let want = exact::cmux(&set.p, (a[0].w(), a[1].w()), (a[2].w(), a[3].w()), a[4].w());
            pair(a, 5, want)
        },
    },
    Routine {
        name: "trgsw_blind_rotate_step",
        slots: &[BOOTSTRAPPING, Slot::Index(64, |s| s.n - 1), WORD, OUT, OUT],
        cost: |s| product_cost(s) + 2 * s.bootstrapping(),
        call: egl_trgsw_blind_rotate_step,
        reference: |set, a| {
            let want = exact::step(&set.p, a[0].w(), a[1].num() as usize, a[2].num() as u32, a[3].w(), a[4].w());
            pair(a, 3, want)
        },
    },
    Routine {
        name: "trgsw_blind_rotate",
        slots: &[Slot::In(Kind::Words, |s| s.n + 1), BOOTSTRAPPING, OUT, OUT],
        cost: |s| s.n * product_cost(s),
        call: egl_trgsw_blind_rotate,
        reference: |set, a| {
            let want = exact::blind_rotate(&set.p, a[0].w(), a[1].w());
            pair(a, 2, want)
        },
    },
    // The original is lent a key with idle rows, and junk in them.
    Routine {
        name: "trgsw_identity_key_switching",
        slots: &[
            Slot::In(Kind::Words, |s| s.ring + 1),
            Slot::In(Kind::Words, |s| s.switching()),
            Slot::Out(Kind::Words, |s| s.n + 1),
        ],
        cost: |s| 100 + 4 * s.switching() + 4 * s.ring * s.t * s.n,
        call: egl_trgsw_identity_key_switching,
        reference: |set, a| {
            let theirs = set.original.map(|o| layout::cloud(o, a[1].w(), &[]).identity_key_switching(a[0].w()));
            a[2] = Arg::Words(agreed(theirs, exact::switch(&set.p, a[0].w(), a[1].w())));
            true
        },
    },
];

pub fn run(set: &Set, tally: &mut Tally) {
    for r in &ROUTINES {
        compare::run(tally, r, set, 60_000_000, 200);
    }
    examples(set, tally);
    if set.original.is_some() && fine(&set.p) {
        through_the_transform(set, tally);
    }
}

/// The library against the original's own external product, cmux and blind rotation.
fn through_the_transform(set: &Set, tally: &mut Tally) {
    let o = set.original.unwrap();
    let s = Sizes::of(&set.p);
    let mut source = Source::new(crate::SEED, &format!("transform {}", set.name));
    let mut words = |len: usize| -> Vec<u32> { (0..len).map(|_| source.next() as u32).collect() };
    for _ in 0..(100_000_000 / compare::SLOW / product_cost(&s)).clamp(2, 300) {
        let (rows, a, b, c, d) = (words(s.rows()), words(s.ring), words(s.ring), words(s.ring), words(s.ring));
        let blank = || Arg::Words(vec![0; s.ring]);
        let lend = |x: &[u32]| Arg::Words(x.to_vec());
        let mut args = [lend(&rows), lend(&a), lend(&b), blank(), blank()];
        let answer = egl_trgsw_external_product(&set.p, &mut args);
        let want = o.external_product(&rows, &a, &b);
        tally.same(answer == 0 && args[3].w() == want.0 && args[4].w() == want.1, || "external product and the transform".into());
        let mut args = [lend(&a), lend(&b), lend(&c), lend(&d), lend(&rows), blank(), blank()];
        let answer = egl_trgsw_cmux(&set.p, &mut args);
        let want = o.cmux((&a, &b), (&c, &d), &rows);
        tally.same(answer == 0 && args[5].w() == want.0 && args[6].w() == want.1, || "cmux and the transform".into());
    }
    if s.n * product_cost(&s) > 1_000_000_000 / compare::SLOW {
        return;
    }
    for _ in 0..(100_000_000 / compare::SLOW / (s.n * product_cost(&s))).clamp(1, 200) {
        let (key, src) = (words(s.bootstrapping()), words(s.n + 1));
        let mut args = [Arg::Words(src.clone()), Arg::Words(key.clone()), Arg::Words(vec![0; s.ring]), Arg::Words(vec![0; s.ring])];
        let answer = egl_trgsw_blind_rotate(&set.p, &mut args);
        let want = o.cloud(&[], &key).blind_rotate(&src);
        tally.same(answer == 0 && args[2].w() == want.0 && args[3].w() == want.1, || "blind rotation and the transform".into());
    }
}

/// Document 01's worked examples that concern these routines.
fn examples(set: &Set, tally: &mut Tally) {
    if set.p[2] == 6 && set.p[3] == 3 {
        let n = 1usize << set.p[1];
        let list = [(0u32, [0i32, 0, 0]), (0xFFFF_FFFF, [0, 0, -1]), (0x8000_0000, [-32, 0, 0]), (0x7FFF_FFFF, [-32, 0, -1])];
        for (x, want) in list {
            let mut args = [Arg::Words(vec![x; n]), Arg::Words(vec![0; n]), Arg::Words(vec![9; 6 * n])];
            let answer = egl_trgsw_decomposition(&set.p, &mut args);
            let got = [0, 1, 2].map(|i| args[2].w()[i * n] as i32);
            tally.same(answer == 0 && got == want, || format!("document 01: digits of {x:#x}: {got:?}"));
            if let Some(o) = set.original {
                let theirs = o.decomposition(&vec![x; n], &vec![0; n]);
                tally.same([0, 1, 2].map(|i| theirs[i * n] as i32) == want, || format!("document 01 and the original: digits of {x:#x}"));
            }
        }
    }
    if set.p[4] == 2 && set.p[5] == 8 {
        switching_examples(set, tally);
    }
}

/// BASEBIT 2, T 8: 0x7FFF and 0xFFFF8000 use no row, 0x8000 uses one.
fn switching_examples(set: &Set, tally: &mut Tally) {
    let s = Sizes::of(&set.p);
    for (x, rows) in [(0x7FFF, 0), (0xFFFF_8000, 0), (0x8000, 1)] {
        let mut src = vec![0; s.ring + 1];
        src[0] = x;
        let mut args = [Arg::Words(src.clone()), Arg::Words(vec![1; s.switching()]), Arg::Words(vec![0; s.n + 1])];
        let answer = egl_trgsw_identity_key_switching(&set.p, &mut args);
        let used = args[2].w()[0].wrapping_neg();
        tally.same(answer == 0 && used == rows, || format!("document 01: {x:#x} uses {used} rows, wanted {rows}"));
        if let Some(o) = set.original {
            let theirs = layout::cloud(o, &vec![1; s.switching()], &[]).identity_key_switching(&src)[0].wrapping_neg();
            tally.same(theirs == rows, || format!("document 01 and the original: {x:#x} uses {theirs} rows"));
        }
    }
}
