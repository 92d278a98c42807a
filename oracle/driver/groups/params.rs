//! The parameter table: every combination of values on both sides of each limit.

use crate::case::{Routine, Set};
use crate::compare::Tally;
use crate::ffi::params::*;
use crate::sizes::in_range;

pub static ROUTINES: [Routine; 1] =
    [Routine { name: "params_check", slots: &[], cost: |_| 1000, call: egl_params_check, reference: |_, _| true }];

pub fn run(sets: &[Set], tally: &mut Tally) {
    const TOP: u32 = u32::MAX;
    let products = |factor: u32, top: u32| {
        // where factor times the value reaches the limit, passes it, or would wrap around
        let wrap = ((1u64 << 32) / factor.max(1) as u64).min(TOP as u64) as u32;
        vec![0, 1, 2, top / factor.max(1), top / factor.max(1) + 1, top, top + 1, wrap, wrap.wrapping_add(1), 1 << 31, TOP]
    };
    let mut list = Vec::new();
    for n in [0, 1, 2, 700, 1099, 1100, 1101, 1 << 31, TOP] {
        for nbit in [0, 1, 9, 10, 11, 31, 32, TOP] {
            for bgbit in [0, 1, 2, 3, 6, 8, 16, 23, 24, 25, 32, 33, 1 << 16, TOP] {
                for l in products(bgbit, 32) {
                    for basebit in [0, 1, 2, 3, 5, 6, 7, 30, 31, 1 << 16, TOP] {
                        list.extend(products(basebit, 30).into_iter().map(|t| [n, nbit, bgbit, l, basebit, t]));
                    }
                }
            }
        }
    }
    for part in list.chunks(1 << 14) {
        compare(tally, part);
    }
    // 01: the pairs on both sides of each limit, whatever the model above says
    let good = [700, 10, 6, 3, 2, 9];
    for (i, v, number) in [(0, 1100, 0), (0, 1101, 1), (3, 5, 0), (3, 6, 1), (5, 15, 0), (5, 16, 1)] {
        let mut p = good;
        p[i] = v;
        tally.same(egl_params_check(&p, &mut []) == number, || format!("params_check {p:?}: wanted {number}"));
    }
    for (p, number) in [([1, 1, 16, 2, 1, 1], 0), ([1, 1, 11, 3, 1, 1], 1), ([1, 1, 1, 1, 5, 6], 0), ([1, 1, 1, 1, 1, 31], 1)] {
        tally.same(egl_params_check(&p, &mut []) == number, || format!("params_check {p:?}: wanted {number}"));
    }
    // The published sets of the original: all in range but Uint7 and Uint8.
    let Some(original) = sets.iter().find_map(|s| s.original) else { return };
    for (name, p) in original.published() {
        let number = (name == "uint7" || name == "uint8") as u64;
        tally.same(egl_params_check(&p, &mut []) == number, || format!("published set {name} {p:?}: wanted {number}"));
    }
}

fn compare(tally: &mut Tally, list: &[[u32; 6]]) {
    for (p, answer) in list.iter().zip(check_all(list)) {
        let number = !in_range(p) as u64;
        tally.refused(number as u32);
        tally.same(answer == number, || format!("params_check {p:?}: {answer}, wanted {number}"));
    }
}
