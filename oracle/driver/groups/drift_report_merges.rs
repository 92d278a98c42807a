//! Merges of reports against the model, every word: of the reports of lists, where a merge has to be the report of both lists; chains of many; records of any words, whose counts,
//! totals and wires wrap; slices of wrong lengths.

use crate::compare::Tally;
use crate::drift_report::{self as model, LARGEST, MOST, SIZES, TOTAL, WORDS};
use crate::ffi::drift_report::egl_drift_report_merge;
use crate::source::Source;
use super::drift_report::{call, empty_report, ends, list, report_of};

pub fn run(tally: &mut Tally, source: &mut Source) {
    lists(tally, source);
    ties(tally, source);
    for (len, parts, times) in [(40, 12, 40), (2000, 2000, 1), (MOST, 300, 1)] {
        (0..times).for_each(|_| chain(tally, source, len, parts));
    }
    junk(tally, source);
    with_no_wire(tally, source);
    in_either_order(tally, source);
    wrong_lengths(tally, source);
}

fn merge_into(tally: &mut Tally, source: &mut Source, first: &[u32], second: &[u32], out_len: usize) -> Option<Vec<u32>> {
    let want = model::merged(first, second, out_len);
    if want.is_ok() {
        tally.remark(["merge that takes the first's largest", "merge that takes the second's largest"][model::taken([first, second])]);
    }
    call(tally, source, ("drift_report_merge", egl_drift_report_merge), &[first, second], out_len, want)
}

pub fn merge(tally: &mut Tally, source: &mut Source, first: &[u32], second: &[u32]) -> Option<Vec<u32>> {
    merge_into(tally, source, first, second, WORDS)
}

/// Two lists: the merge of their reports is the report of the one followed by the other, and refused where that is.
fn of_lists(tally: &mut Tally, source: &mut Source, x: &[u32], y: &[u32]) {
    let (Some(first), Some(second)) = (report_of(tally, source, x), report_of(tally, source, y)) else { return };
    let merged = merge(tally, source, &first, &second);
    let whole = report_of(tally, source, &[x, y].concat());
    tally.same(merged == whole, || format!("reports of {} and {} wires: their merge is not the report of all", x.len(), y.len()));
}

/// Lists of all lengths, totals that meet the most wires and totals that pass them by one.
fn lists(tally: &mut Tally, source: &mut Source) {
    let half = MOST / 2;
    let meet = [(0, MOST), (MOST, 0), (1, MOST - 1), (MOST - 1, 1), (half, half + 1), (half + 1, half)];
    let pass = [(1, MOST), (MOST, 1), (2, MOST - 1), (half + 1, half + 1), (MOST, MOST)];
    for (x, y) in [(0, 0), (0, 1), (1, 0), (1, 1)].into_iter().chain(meet).chain(pass) {
        let (x, y) = (list(source, x), list(source, y));
        of_lists(tally, source, &x, &y);
    }
    const TIMES: usize = if cfg!(bridge) { 200 } else { 8000 };
    for _ in 0..TIMES {
        let (x, y) = (source.below(30) as usize, source.below(30) as usize);
        let (x, y) = (list(source, x), list(source, y));
        of_lists(tally, source, &x, &y);
    }
}

/// The same absolute value in both lists, with either sign in each, at any place; and one that is greater by one on either side.
fn ties(tally: &mut Tally, source: &mut Source) {
    for value in [1u32, 2, 1 << 20, 1 << 29, (1 << 31) - 2] {
        let [more, less] = [value + 1, value - 1];
        for (x, y) in [(value, value), (value, more), (more, value), (value, less), (less, value)] {
            for signs in 0..4 {
                let (len, other) = (1 + source.below(9) as usize, 1 + source.below(9) as usize);
                let (mut first, mut second) = (vec![0; len], vec![0; other]);
                first[source.below(len as u64) as usize] = if signs & 1 == 0 { x } else { x.wrapping_neg() };
                second[source.below(other as u64) as usize] = if signs & 2 == 0 { y } else { y.wrapping_neg() };
                of_lists(tally, source, &first, &second);
            }
        }
    }
    // the one drift whose absolute value no other has
    for other in [1 << 31, (1 << 31) - 1, (1 << 31) + 1, 0] {
        of_lists(tally, source, &[0, 1 << 31], &[other, 0, other]);
        of_lists(tally, source, &[other, 0, other], &[0, 1 << 31]);
    }
}

/// A list in so many parts, some of them empty, whose reports are merged from the left, from the right and in pairs: each time the report of the whole list. One wire more than the most is
/// refused.
fn chain(tally: &mut Tally, source: &mut Source, len: usize, parts: usize) {
    let drifts = list(source, len);
    let mut cuts: Vec<usize> = (1..parts).map(|_| source.below(len as u64 + 1) as usize).chain([0, len]).collect();
    cuts.sort_unstable();
    let reports: Option<Vec<Vec<u32>>> = cuts.windows(2).map(|cut| report_of(tally, source, &drifts[cut[0]..cut[1]])).collect();
    let (Some(reports), Some(empty)) = (reports, empty_report(tally, source)) else { return };
    let left = reports.iter().try_fold(empty.clone(), |before, next| merge(tally, source, &before, next));
    let right = reports.iter().rev().try_fold(empty, |after, next| merge(tally, source, next, &after));
    let pairs = in_pairs(tally, source, reports);
    let whole = report_of(tally, source, &drifts);
    for (way, merged) in [("from the left", &left), ("from the right", &right), ("in pairs", &pairs)] {
        tally.same(merged == &whole, || format!("{parts} parts of {len} wires, merged {way}, are not the report of all"));
    }
    if let (MOST, Some(whole), Some(one)) = (len, whole, report_of(tally, source, &[1])) {
        merge(tally, source, &whole, &one);
        merge(tally, source, &one, &whole);
    }
}

/// Neighbours merged until one is left.
fn in_pairs(tally: &mut Tally, source: &mut Source, mut reports: Vec<Vec<u32>>) -> Option<Vec<u32>> {
    while reports.len() > 1 {
        let next: Option<Vec<Vec<u32>>> = reports.chunks(2).map(|pair| if let [x, y] = pair { merge(tally, source, x, y) } else { Some(pair[0].clone()) }).collect();
        reports = next?;
    }
    reports.pop()
}

/// Totals of records: none, some, about the most, and such that two of them pass 2^32 together.
const TOTALS: [u32; 15] = [
    0, 1, 2, 32_767, 32_768, 65_534, 65_535, 65_536, 65_537, 1 << 31, (1 << 31) + 1, u32::MAX - 65_535, u32::MAX - 65_534, u32::MAX - 1, u32::MAX,
];

/// Largest drifts of records.
const LARGESTS: [u32; 9] = [0, 1, u32::MAX, 5, 5u32.wrapping_neg(), 1 << 29, (1 << 31) - 1, (1 << 31) + 1, 1 << 31];

/// A record of any words besides these two: counts and wires that wrap when something is added to them, or not.
fn record(source: &mut Source, largest: u32, total: u32) -> Vec<u32> {
    let mut out = source.words(SIZES);
    let any = source.word();
    out.extend([largest, source.of(&[any, 0, 1, 65_534, u32::MAX, u32::MAX - 1, u32::MAX - 65_534, 1 << 31]), total]);
    out
}

/// Records of any words: all pairs of totals, for those that are not refused with all pairs of largest drifts; then any.
fn junk(tally: &mut Tally, source: &mut Source) {
    for first in TOTALS {
        for second in TOTALS {
            let fits = u64::from(first) + u64::from(second) <= MOST as u64;
            for (x, y) in LARGESTS.into_iter().flat_map(|x| LARGESTS.map(|y| (x, y))) {
                if fits || source.below(20) == 0 {
                    let (first, second) = (record(source, x, first), record(source, y, second));
                    merge(tally, source, &first, &second);
                }
            }
        }
    }
    const TIMES: usize = if cfg!(bridge) { 1500 } else { 60_000 };
    for _ in 0..TIMES {
        let (first, second) = (any_record(source), any_record(source));
        merge(tally, source, &first, &second);
    }
}

/// The report of no wire behind a record of any words gives it again where its total is not too large; before it too, but that largest and wire beside a total of 0 become 0.
fn with_no_wire(tally: &mut Tally, source: &mut Source) {
    let Some(empty) = empty_report(tally, source) else { return };
    for (total, largest) in TOTALS.into_iter().flat_map(|total| LARGESTS.map(|largest| (total, largest))) {
        let other = record(source, largest, total);
        let mut lead = other.clone();
        if total == 0 {
            lead[LARGEST..TOTAL].fill(0);
        }
        let (left, right) = (merge(tally, source, &empty, &other), merge(tally, source, &other, &empty));
        let fits = total as usize <= MOST;
        tally.same(right == fits.then_some(other), || format!("largest {largest:x} and total {total:x}, the report of no wire behind it: another record"));
        tally.same(left == fits.then_some(lead), || format!("largest {largest:x} and total {total:x}, the report of no wire before it: another record"));
    }
}

/// A record of any words; mostly its total fits.
fn any_record(source: &mut Source) -> Vec<u32> {
    let any = source.word();
    let total = match source.below(4) {
        0 => source.of(&TOTALS),
        1 => any,
        _ => source.below(40_000) as u32,
    };
    let (one, other) = (source.of(&LARGESTS), source.of(&ends()));
    let largest = source.of(&[any, one, other]);
    record(source, largest, total)
}

/// Three records of any words: which two are merged first changes nothing, not even whether it is refused.
fn in_either_order(tally: &mut Tally, source: &mut Source) {
    const TIMES: usize = if cfg!(bridge) { 200 } else { 8000 };
    for _ in 0..TIMES {
        let [x, y, z] = [0; 3].map(|_| any_record(source));
        let left = merge(tally, source, &x, &y).and_then(|xy| merge(tally, source, &xy, &z));
        let right = merge(tally, source, &y, &z).and_then(|yz| merge(tally, source, &x, &yz));
        let shown = [&x, &y, &z].map(|r| [r[LARGEST], r[TOTAL]]);
        tally.same(left == right, || format!("largest and total {shown:x?}: another record where the last two are merged first"));
    }
}

/// Slices of other lengths than a report's, alone and together, get 2, also where the totals are too large.
fn wrong_lengths(tally: &mut Tally, source: &mut Source) {
    const LENGTHS: [usize; 5] = [WORDS, 0, 35, 37, 72];
    for total in [1, MOST as u32, u32::MAX] {
        for (first, second, out) in LENGTHS.into_iter().flat_map(|x| LENGTHS.into_iter().flat_map(move |y| LENGTHS.map(|z| (x, y, z)))) {
            let mut of = |len: usize| {
                let mut words = source.words(len);
                words.iter_mut().skip(TOTAL).for_each(|word| *word = total);
                words
            };
            let (first, second) = (of(first), of(second));
            merge_into(tally, source, &first, &second, out);
        }
    }
}
