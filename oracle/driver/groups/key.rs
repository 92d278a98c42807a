//! Key material: the offset, the test vector, the switching key with lent masks and noise, its rows, and a former key without its idle rows, word for word against
//! the documents' words and, where it is at hand, the original, whose key has idle rows that are dropped first. What a caller may look up and lend besides is in `key_rows`.

use crate::case::{Arg, Kind, Routine, Set, Slot};
use crate::compare::{self, Tally};
use crate::exact;
use crate::exact_words::{self, agreed};
use crate::ffi::key::*;
use crate::layout;
use crate::list::original_offset;
use crate::sizes::Sizes;
use crate::table;
use super::key_rows;

const KEY0: Slot = Slot::Key(|s| s.n);
const KEY1: Slot = Slot::Key(|s| s.ring);
const OUT: Slot = Slot::Out(Kind::Words, |s| s.ring);

const OUTER: Slot = Slot::Index(64, |s| s.ring - 1);
const FIELD: Slot = Slot::Index(64, |s| s.t - 1);
const DIGIT: Slot = Slot::Digit(|s| s.base - 1);

pub static ROUTINES: [Routine; 6] = [
    Routine {
        name: "key_decomposition_offset",
        slots: &[Slot::Value],
        cost: |_| 100_000,
        call: egl_key_decomposition_offset,
        reference: |set, a| {
            let theirs = set.original.map(|o| o.decomposition_offset());
            a[0] = Arg::Num(agreed(theirs, exact::offset(&set.p)) as u64);
            true
        },
    },
    Routine {
        name: "key_gen_testvec",
        slots: &[OUT, OUT],
        cost: |_| 100_000,
        call: egl_key_gen_testvec,
        reference: |set, a| {
            let (x, y) = agreed(set.original.map(|o| o.gen_testvec()), exact_words::testvec(&set.p));
            (a[0], a[1]) = (Arg::Words(x), Arg::Words(y));
            true
        },
    },
    Routine {
        name: "key_gen_key_switching_key",
        slots: &[
            KEY0,
            KEY1,
            Slot::In(Kind::Words, |s| s.switching_rows() * s.n),
            Slot::In(Kind::Words, |s| s.switching_rows()),
            Slot::Out(Kind::Words, |s| s.switching()),
        ],
        cost: |s| 100 + 10 * s.switching(),
        call: egl_key_gen_key_switching_key,
        reference: |set, a| {
            let theirs = set.original.map(|o| layout::without_idle_rows(&set.p, &o.gen_key_switching_key(a[0].w(), a[1].w(), a[2].w(), a[3].w())));
            a[4] = Arg::Words(agreed(theirs, exact_words::switching_key(&set.p, a[0].w(), a[1].w(), a[2].w(), a[3].w())));
            true
        },
    },
    Routine {
        name: "key_drop_idle_rows",
        slots: &[Slot::In(Kind::Words, |s| s.former_switching()), Slot::Out(Kind::Words, |s| s.switching())],
        cost: |s| 100 + 4 * s.former_switching(),
        call: egl_key_drop_idle_rows,
        reference: |set, a| {
            let s = Sizes::of(&set.p);
            // every row but each BASE-th from the first on
            let rows = a[0].w().chunks(s.n + 1).enumerate().filter(|(at, _)| at % s.base != 0);
            let left = rows.flat_map(|(_, row)| row.iter().copied()).collect();
            a[1] = Arg::Words(agreed(Some(layout::without_idle_rows(&set.p, a[0].w())), left));
            true
        },
    },
    Routine {
        name: "key_row_index",
        slots: &[OUTER, FIELD, DIGIT, Slot::Value],
        cost: |_| 100,
        call: egl_key_row_index,
        reference: |set, a| {
            a[3] = row_place(set, [0, 1, 2].map(|x| a[x].num() as usize));
            true
        },
    },
    Routine {
        name: "key_switching_row",
        slots: &[Slot::In(Kind::Words, |s| s.switching()), OUTER, FIELD, DIGIT, Slot::Value],
        cost: |s| 100 + 4 * s.switching(),
        call: switching_row,
        reference: |set, a| {
            a[4] = row_place(set, [1, 2, 3].map(|x| a[x].num() as usize));
            true
        },
    },
];

/// The routine of that name.
pub fn routine(name: &str) -> &'static Routine {
    ROUTINES.iter().find(|r| r.name == name).expect("a routine of the group")
}

/// The place of a row among the rows.
fn row_place(set: &Set, row: [usize; 3]) -> Arg {
    Arg::Num(Sizes::of(&set.p).place(row) as u64)
}

/// The lookup of a row: the answer, and beside it the row's place, as two calls give them. Where only one of them knows the row, an answer that no call gives.
fn switching_row(p: &[u32; 6], args: &mut [Arg]) -> u64 {
    let indices = [1, 2, 3].map(|x| args[x].num());
    let mut asked = vec![Arg::Num(args[0].w().len() as u64)];
    asked.extend(indices.map(Arg::Num));
    let (answer, place) = (egl_key_switching_row_answer(p, &mut asked), egl_key_row_index(p, &mut indices.map(Arg::Num)));
    match (answer, place as u32) {
        (0, 0) => place,
        (0, _) | (3, 0) => u64::MAX,
        _ => answer,
    }
}

/// The offset by the rule of document 02 (2026-04), in 128 bits; none where the division leaves a remainder.
fn rule(bgbit: u32, l: u32) -> Option<u128> {
    let (dividend, divisor) = ((1u128 << (31 + bgbit - l * bgbit)) * ((1 << (l * bgbit)) - 1), (1u128 << bgbit) - 1);
    (dividend % divisor == 0).then_some(dividend / divisor)
}

/// BGBIT and L whose product passes 2^32: modulo 2^32 the first four are in range.
const WRAPPING: [(u32, u32); 8] =
    [(2, (1 << 31) + 1), (3, 0x5555_5556), (16, (1 << 28) + 2), (24, (1 << 29) + 1), (2, 1 << 31), (24, u32::MAX), (1 << 16, 1 << 16), (u32::MAX, u32::MAX)];

/// Every BGBIT and L in range, with the set's other numbers: the library against the original's loop, and both against the rule. About the range, and where the
/// product wraps: refusal 1.
fn offsets(set: &Set, tally: &mut Tally) {
    for (bgbit, l) in (0..=26).flat_map(|bgbit| (0..=34).map(move |l| (bgbit, l))).chain(WRAPPING) {
        let [n, nbit, _, _, basebit, t] = set.p;
        let p = [n, nbit, bgbit, l, basebit, t];
        let number = table::number(&p, ROUTINES[0].slots, &[Arg::Num(0)]);
        let want = if number == 0 { exact::offset(&p) } else { 0 };
        tally.refused(number);
        let answer = egl_key_decomposition_offset(&p, &mut []);
        tally.same(answer == (want as u64) << 32 | number as u64, || format!("offset at BGBIT {bgbit}, L {l}: answer {answer:#x}, wanted {want:#x}, number {number}"));
        if number != 0 {
            continue;
        }
        if rule(bgbit, l) != Some(want as u128) {
            tally.differ(format!("the rule at BGBIT {bgbit}, L {l} does not give {want:#x}"));
        }
        if set.original.is_some() {
            let theirs = original_offset(bgbit, l);
            if theirs != Some(want) {
                tally.differ(format!("the original's loop at BGBIT {bgbit}, L {l} gives {theirs:x?}, wanted {want:#x}"));
            } else if answer == (want as u64) << 32 {
                tally.remark("the offset that the original's loop gives, compiled for its BGBIT and L");
            }
        }
    }
}

pub fn run(set: &Set, tally: &mut Tally) {
    for r in &ROUTINES {
        compare::run(tally, r, set, 30_000_000, 300);
    }
    offsets(set, tally);
    key_rows::run(set, tally);
    if set.p[2] == 6 && set.p[3] == 3 {
        let answer = egl_key_decomposition_offset(&set.p, &mut []);
        tally.same(answer == 0x8208_0000 << 32, || "document 01: offset at BGBIT 6, L 3".into());
        if let Some(o) = set.original {
            tally.same(o.decomposition_offset() == 0x8208_0000, || "document 01 and the original: offset".into());
        }
    }
}
