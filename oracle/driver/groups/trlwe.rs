//! TRLWE: encryption of doubles and of bits, decryption, extraction, word for word against document 01's words and, where it is at hand, the original,
//! whose product is exact here.

use crate::case::{Arg, Kind, Routine, Set, Slot};
use crate::compare::{self, Tally};
use crate::exact;
use crate::exact_words::{self, agreed};
use crate::ffi::trlwe::*;

const RING: Slot = Slot::In(Kind::Words, |s| s.ring);
const OUT: Slot = Slot::Out(Kind::Words, |s| s.ring);
const KEY: Slot = Slot::Key(|s| s.ring);

pub static ROUTINES: [Routine; 4] = [
    Routine {
        name: "trlwe_encrypt_f64",
        slots: &[Slot::In(Kind::Doubles, |s| s.ring), RING, RING, KEY, OUT, OUT],
        cost: |s| 40 + s.ring * s.ring,
        call: egl_trlwe_encrypt_f64,
        reference: |set, a| {
            let Arg::Doubles(d) = &a[0] else { return false };
            let plain: Vec<u32> = d.iter().map(|x| exact::torus(x.to_bits())).collect();
            let theirs = set.original.map(|o| o.trlwe_encrypt_f64(d, a[1].w(), a[2].w(), a[3].w()));
            let (x, y) = agreed(theirs, exact_words::pair(&plain, a[1].w(), a[2].w(), a[3].w()));
            (a[4], a[5]) = (Arg::Words(x), Arg::Words(y));
            true
        },
    },
    Routine {
        name: "trlwe_encrypt_bool",
        slots: &[Slot::In(Kind::Bytes, |s| s.ring), RING, RING, KEY, OUT, OUT],
        cost: |s| 40 + s.ring * s.ring,
        call: egl_trlwe_encrypt_bool,
        reference: |set, a| {
            let bits: Vec<bool> = a[0].b().iter().map(|&x| x != 0).collect();
            let plain: Vec<u32> = bits.iter().map(|&bit| exact_words::bit_word(bit)).collect();
            let theirs = set.original.map(|o| o.trlwe_encrypt_bool(&bits, a[1].w(), a[2].w(), a[3].w()));
            let (x, y) = agreed(theirs, exact_words::pair(&plain, a[1].w(), a[2].w(), a[3].w()));
            (a[4], a[5]) = (Arg::Words(x), Arg::Words(y));
            true
        },
    },
    Routine {
        name: "trlwe_decrypt_bool",
        slots: &[RING, RING, KEY, Slot::Out(Kind::Bytes, |s| s.ring)],
        cost: |s| 40 + s.ring * s.ring,
        call: egl_trlwe_decrypt_bool,
        reference: |set, a| {
            let theirs = set.original.map(|o| o.trlwe_decrypt_bool(a[0].w(), a[1].w(), a[2].w()));
            let bits = agreed(theirs, exact_words::pair_bits(a[0].w(), a[1].w(), a[2].w()));
            a[3] = Arg::Bytes(bits.into_iter().map(u8::from).collect());
            true
        },
    },
    Routine {
        name: "trlwe_sample_extract_index",
        slots: &[RING, RING, Slot::Index(64, |s| s.ring - 1), Slot::Out(Kind::Words, |s| s.ring + 1)],
        cost: |s| 40 + 4 * s.ring,
        call: egl_trlwe_sample_extract_index,
        reference: |set, a| {
            let k = a[2].num() as usize;
            let theirs = set.original.map(|o| o.sample_extract_index(a[0].w(), a[1].w(), k));
            a[3] = Arg::Words(agreed(theirs, exact::extract(a[0].w(), a[1].w(), k)));
            true
        },
    },
];

pub fn run(set: &Set, tally: &mut Tally) {
    for r in &ROUTINES {
        compare::run(tally, r, set, 60_000_000, 300);
    }
    if set.p[1] == 2 {
        // document 01: extraction at 0 of [1,2,3,4], b[0] 5
        let mut args = vec![Arg::Words(vec![1, 2, 3, 4]), Arg::Words(vec![5, 0, 0, 0]), Arg::Num(0), Arg::Words(vec![0; 5])];
        let answer = egl_trlwe_sample_extract_index(&set.p, &mut args);
        let want = [1, 0xFFFF_FFFB, 0xFFFF_FFFC, 0xFFFF_FFFD, 5];
        tally.same(answer == 0 && args[3].w() == want, || "document 01: extraction at 0".into());
        if let Some(o) = set.original {
            tally.same(o.sample_extract_index(&[1, 2, 3, 4], &[5, 0, 0, 0], 0) == want, || "document 01 and the original: extraction at 0".into());
        }
    }
}
