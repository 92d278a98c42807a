//! A report over as many wires as one may have, and a merge of two, beside plain Rust.

use crate::library;
use crate::measure::{table, way};
use crate::words;
use std::hint::black_box;

const WIRES: usize = 65_535;
const LIBRARY: &str = "library, drift_report_of";
const PLAIN: &str = "plain Rust";

/// Counts of the sizes from 0 to 32, the largest drift, its wire, the total.
type Report = [u32; 36];

/// One way through the drifts, as one would write it by hand, with the library's check.
#[inline(never)]
fn plain_of(drifts: &[u32], out: &mut Report) -> bool {
    if drifts.len() > WIRES {
        return false;
    }
    let mut counts = [0; 33];
    let (mut largest, mut most, mut place) = (0, 0, 0);
    for (wire, drift) in drifts.iter().enumerate() {
        let absolute = (*drift as i32).unsigned_abs();
        counts[32 - absolute.leading_zeros() as usize] += 1;
        if absolute > most {
            (largest, most, place) = (*drift, absolute, wire);
        }
    }
    out[..33].copy_from_slice(&counts);
    out[33..].copy_from_slice(&[largest, place as u32, drifts.len() as u32]);
    true
}

/// Two reports into one, with the library's check.
#[inline(never)]
fn plain_merge(first: &Report, second: &Report, out: &mut Report) -> bool {
    let absolute = |report: &Report| (report[33] as i32).unsigned_abs();
    if first[35] as u64 + second[35] as u64 > WIRES as u64 {
        return false;
    }
    for ((sum, x), y) in out[..33].iter_mut().zip(&first[..33]).zip(&second[..33]) {
        *sum = x.wrapping_add(*y);
    }
    let moved = second[35] != 0 && (first[35] == 0 || absolute(second) > absolute(first));
    (out[33], out[34]) = if moved { (second[33], first[35].wrapping_add(second[34])) } else { (first[33], first[34]) };
    out[35] = first[35] + second[35];
    true
}

/// Drifts as honest runs have them: nearly all of 20 to 27 bits, normally spread with a deviation of 2^25 (a sum of twelve uniform parts, less its mean).
fn honest(seed: u64) -> Vec<u32> {
    let parts = |twelve: &[u32]| twelve.iter().map(|part| i64::from(part >> 7)).sum::<i64>() - 6 * (1 << 25);
    words(12 * WIRES, seed).chunks(12).map(|twelve| parts(twelve) as u32).collect()
}

fn reports(title: &str, drifts: &[u32]) {
    let (mut o1, mut o2) = ([0; 36], [1; 36]);
    library::report_of(drifts, &mut o1);
    assert!(plain_of(drifts, &mut o2), "the plain routine refused");
    assert!(o1 == o2, "the two reports differ");
    let ways = vec![
        way(LIBRARY, || library::report_of(black_box(drifts), &mut o1)),
        way(PLAIN, || assert!(plain_of(black_box(drifts), black_box(&mut o2)))),
    ];
    table(&format!("A report over 65,535 wires, {title}; bar: library at most 1.5 of plain Rust"), ways, 2000, PLAIN);
}

/// A merge in which the second's largest is taken, and one in which the first's stays.
fn merges() {
    let half = |seed: u64| -> Report {
        let mut out = [0; 36];
        library::report_of(&honest(seed)[..WIRES / 2], &mut out);
        out
    };
    let (x, y) = (half(21), half(22));
    let (mut o1, mut o2) = ([0; 36], [1; 36]);
    let both = [(x, y), (y, x)];
    for (first, second) in &both {
        library::merge_reports(first, second, &mut o1);
        assert!(plain_merge(first, second, &mut o2), "the plain merge refused");
        assert!(o1 == o2, "the two merges differ");
    }
    // many calls a turn: one is too short for the clock
    const CALLS: usize = 1000;
    let ways = vec![
        way("library, drift_report_merge, 2,000 calls", || {
            (0..CALLS).for_each(|_| both.iter().for_each(|(first, second)| library::merge_reports(black_box(first), black_box(second), &mut o1)))
        }),
        way(PLAIN, || {
            (0..CALLS).for_each(|_| both.iter().for_each(|(first, second)| assert!(plain_merge(black_box(first), black_box(second), black_box(&mut o2)))))
        }),
    ];
    table("A merge of two reports", ways, 1000, PLAIN);
}

pub fn run() {
    reports("drifts as honest runs have them", &honest(20));
    reports("random words", &words(WIRES, 23));
    merges();
}
