//! Reports over many wires' drifts against the model, every word: lengths up to the most wires and beyond, each size at both ends and with either sign, ties, slices of wrong
//! lengths, drifts as drift runs leave them. Merges are in `drift_report_merges`.

use crate::case::{Arg, Set};
use crate::circuits::{read, valid, KINDS};
use crate::compare::Tally;
use crate::drift_report::{self as model, MOST, SIZES, TOTAL, WORDS};
use crate::ffi::drift::{egl_drift_inside, egl_drift_run};
use crate::ffi::drift_report::*;
use crate::honest::{Keys, Spread};
use crate::source::Source;
use super::drift_report_merges::{self as merges, merge};

/// The sizes of drifts that are inside are 0 to this one.
const INSIDE: usize = 29;

/// A function of the library and its name.
pub type Function = (&'static str, fn(&mut [Arg]) -> u64);

pub fn run(_sets: &[Set], tally: &mut Tally) {
    let mut source = Source::new(crate::SEED, "drift_report");
    header(tally);
    empty(tally, &mut source);
    lengths(tally, &mut source);
    sizes(tally, &mut source);
    alike(tally, &mut source);
    ties(tally, &mut source);
    places(tally, &mut source);
    wrong_lengths(tally, &mut source);
    of_runs(tally, &mut source);
    merges::run(tally, &mut source);
}

/// The start of a slice, to be told of.
fn shown(words: &[u32]) -> String {
    let start: Vec<String> = words.iter().take(40).map(|word| format!("{word:x}")).collect();
    format!("[{}] ({} words)", start.join(" "), words.len())
}

/// One call: its answer and every word of the slice of so many words that it may write, which holds random ones before. Gives that slice where the work was done.
pub fn call(tally: &mut Tally, source: &mut Source, (name, function): Function, lent: &[&[u32]], out_len: usize, want: Result<Vec<u32>, u32>) -> Option<Vec<u32>> {
    let before: Vec<u32> = (0..out_len).map(|_| source.next() as u32).collect();
    let mut args: Vec<Arg> = lent.iter().chain([&&before[..]]).map(|words| Arg::Words(words.to_vec())).collect();
    let answer = function(&mut args);
    let (number, after) = match want {
        Ok(report) => (0, report),
        Err(number) => (number, before),
    };
    let out = args.pop().expect("the slice to be written");
    let differs = out.differs(&Arg::Words(after));
    tally.refused(number);
    tally.words += out_len as u64;
    tally.same(answer == number as u64 && differs.is_none(), || {
        let lent: Vec<String> = lent.iter().map(|words| format!(" {}", shown(words))).collect();
        let word = differs.map_or(String::new(), |at| format!(", word {at} differs"));
        format!("{name}{} into {out_len} words: answer {answer:#x}, wanted {number:#x}{word}", lent.join(","))
    });
    (answer == 0).then(|| out.w().to_vec())
}

fn report_into(tally: &mut Tally, source: &mut Source, drifts: &[u32], out_len: usize) -> Option<Vec<u32>> {
    call(tally, source, ("drift_report_of", egl_drift_report_of), &[drifts], out_len, model::of(drifts, out_len))
}

pub fn report_of(tally: &mut Tally, source: &mut Source, drifts: &[u32]) -> Option<Vec<u32>> {
    report_into(tally, source, drifts, WORDS)
}

/// The library's report of no wire.
pub fn empty_report(tally: &mut Tally, source: &mut Source) -> Option<Vec<u32>> {
    call(tally, source, ("drift_report_empty", egl_drift_report_empty), &[], WORDS, Ok(vec![0; WORDS]))
}

/// The words at both ends of each size, with either sign: 0, ±2^(k-1) and ±(2^k - 1) for k from 1 to 31, and -2^31.
pub fn ends() -> Vec<u32> {
    let mut out = vec![0, 1, u32::MAX, 1 << 31];
    let positive = (2..32).flat_map(|size| [1 << (size - 1), (1 << size) - 1]);
    out.extend(positive.flat_map(|drift: u32| [drift, drift.wrapping_neg()]));
    out
}

fn signed(source: &mut Source, absolute: u32) -> u32 {
    if source.below(2) == 0 { absolute } else { absolute.wrapping_neg() }
}

/// A drift of a size in this range, at one of the size's ends or anywhere in it.
fn of_sizes(source: &mut Source, sizes: std::ops::Range<u64>) -> u32 {
    let size = sizes.start + source.below(sizes.end - sizes.start);
    let (least, most) = match size {
        0 => return 0,
        32 => return 1 << 31,
        _ => (1 << (size - 1), (1 << size) - 1),
    };
    let any = least + (source.next() as u32 & (least - 1));
    let absolute = source.of(&[least, most, any, any]);
    signed(source, absolute)
}

/// A drift that is smaller than this in absolute value.
fn smaller(source: &mut Source, absolute: u32) -> u32 {
    let drift = source.below(absolute as u64) as u32;
    signed(source, drift)
}

/// A list of drifts: any words, drifts of any size, of the sizes that honest runs have, few values so that most are ties, or one absolute value.
pub fn list(source: &mut Source, len: usize) -> Vec<u32> {
    let (kind, one) = (source.below(5), source.of(&ends()));
    let drift = |source: &mut Source| match kind {
        0 => source.word(),
        1 => of_sizes(source, 0..SIZES as u64),
        2 => of_sizes(source, 20..28),
        3 => smaller(source, 5),
        _ => signed(source, one),
    };
    (0..len).map(|_| drift(source)).collect()
}

/// The header's numbers are the model's.
fn header(tally: &mut Tally) {
    for (name, want) in [("EGL_DRIFT_REPORT_WORDS", WORDS), ("EGL_DRIFT_REPORT_WIRES", MOST), ("EGL_DRIFT_REPORT_INSIDE", INSIDE)] {
        let stated = super::stated(name);
        tally.same(stated == Some(want as u32), || format!("{name} is {stated:?} in the header, wanted {want}"));
    }
}

fn empty(tally: &mut Tally, source: &mut Source) {
    for out_len in [0, 1, 33, 35, 37, 72, 1000] {
        call(tally, source, ("drift_report_empty", egl_drift_report_empty), &[], out_len, Err(2));
    }
    (0..10).for_each(|_| drop(empty_report(tally, source)));
}

/// Lists from no wire to the most wires, and longer ones: among those some whose length modulo 2^16 is that of a short list.
fn lengths(tally: &mut Tally, source: &mut Source) {
    const LENGTHS: [usize; 29] = [
        0, 1, 2, 3, 4, 5, 7, 8, 9, 31, 32, 33, 255, 256, 257, 1000, 4095, 4096, 32_767, 32_768, 65_533, 65_534, 65_535, 65_536, 65_537, 70_000, 131_071, 131_072, 131_073,
    ];
    const TIMES: usize = if cfg!(bridge) { 3 } else { 12 };
    for len in LENGTHS {
        for _ in 0..TIMES {
            let drifts = list(source, len);
            report_of(tally, source, &drifts);
        }
    }
    const SHORT: usize = if cfg!(bridge) { 500 } else { 20_000 };
    for _ in 0..SHORT {
        let len = source.below(70) as usize;
        let drifts = list(source, len);
        report_of(tally, source, &drifts);
    }
}

/// Each end of each size alone, in pairs, and all of them in one list.
fn sizes(tally: &mut Tally, source: &mut Source) {
    let ends = ends();
    for first in &ends {
        report_of(tally, source, &[*first]);
        for second in &ends {
            // through the bridge some of the pairs
            if !cfg!(bridge) || source.below(12) == 0 {
                report_of(tally, source, &[*first, *second]);
            }
        }
    }
    for _ in 0..50 {
        let mut drifts = ends.clone();
        for at in (1..drifts.len()).rev() {
            drifts.swap(at, source.below(at as u64 + 1) as usize);
        }
        report_of(tally, source, &drifts);
    }
}

/// One drift at every place.
fn alike(tally: &mut Tally, source: &mut Source) {
    for drift in ends() {
        for len in [2, 3, 100] {
            report_of(tally, source, &vec![drift; len]);
        }
    }
    for drift in [0, 1, u32::MAX, 1 << 26, 1 << 31, (1 << 31) - 1, (1 << 31) + 1] {
        report_of(tally, source, &vec![drift; MOST]);
    }
}

/// The same absolute value at the first place, in the middle and at the last, at each with one sign or the other or not at all, among smaller ones: the earliest is told.
fn ties(tally: &mut Tally, source: &mut Source) {
    // through the bridge the longest list has one of the values
    let most = if cfg!(bridge) { 1 } else { VALUES.len() };
    for (len, values) in [3, 4, 17, 1000].map(|len| (len, VALUES.len())).into_iter().chain([(MOST, most)]) {
        for value in VALUES.into_iter().take(values) {
            for choice in 0..27 {
                let mut drifts: Vec<u32> = (0..len).map(|_| smaller(source, value)).collect();
                for (at, part) in [(0, choice % 3), (len / 2, choice / 3 % 3), (len - 1, choice / 9)] {
                    match part {
                        0 => {}
                        1 => drifts[at] = value,
                        _ => drifts[at] = value.wrapping_neg(),
                    }
                }
                report_of(tally, source, &drifts);
            }
        }
    }
}

/// Absolute values for ties.
const VALUES: [u32; 7] = [1 << 27, 1, 2, 3, 1 << 29, (1 << 31) - 1, 1 << 31];

/// The largest at every place of a short list and at some of the longest one; lists that go up and down.
fn places(tally: &mut Tally, source: &mut Source) {
    let short = (0..40).map(|at| (40, at));
    let long = [0, 1, 255, 256, 32_767, 32_768, 65_533, 65_534].map(|at| (MOST, at));
    for (len, at) in short.chain(long) {
        let value = source.of(&VALUES);
        let mut drifts: Vec<u32> = (0..len).map(|_| smaller(source, value)).collect();
        drifts[at] = signed(source, value);
        report_of(tally, source, &drifts);
    }
    for len in [2, 10, 500, MOST] {
        let mut drifts: Vec<u32> = (0..len).map(|_| of_sizes(source, 0..SIZES as u64)).collect();
        drifts.sort_by_key(|drift| model::absolute(*drift));
        report_of(tally, source, &drifts);
        drifts.reverse();
        report_of(tally, source, &drifts);
    }
}

/// A slice of another length than a report's gets 2, also where there are too many wires.
fn wrong_lengths(tally: &mut Tally, source: &mut Source) {
    for len in [0, 1, 36, MOST, MOST + 1, 70_000] {
        for out_len in [0, 1, 33, 35, 37, 72] {
            let drifts = source.words(len);
            report_into(tally, source, &drifts, out_len);
        }
    }
}

/// Drift runs of random circuits: a report of each run's wires, which tells as many inside as the library's `inside` does, and the reports merged one after another, which tell of all
/// wires of all runs.
fn of_runs(tally: &mut Tally, source: &mut Source) {
    let (mut merged, mut all) = (empty_report(tally, source), Vec::new());
    for p in [[1, 1, 1, 1, 1, 1], [4, 3, 6, 3, 2, 7], [5, 4, 8, 3, 2, 8], [6, 3, 10, 2, 4, 3]] {
        let spread = Spread { level0: source.of(&[1.0, 8.6e4, 2e6]), level1: source.of(&[1.0, 86.0, 2e4]) };
        let keys = Keys::spread(source, p, spread);
        for _ in 0..10 {
            let drifts = run_drifts(tally, source, &keys);
            let Some(report) = report_of(tally, source, &drifts) else { continue };
            let inside = drifts.iter().filter(|drift| egl_drift_inside(&mut [Arg::Num(**drift as u64)]) as u32 == 1).count();
            let told: u32 = report[..=INSIDE].iter().sum();
            tally.same(told as usize == inside, || format!("{told} wires of at most {INSIDE} bits, {inside} inside of {}", report[TOTAL]));
            all.extend(drifts);
            merged = merged.and_then(|before| merge(tally, source, &before, &report));
        }
    }
    let whole = report_of(tally, source, &all);
    tally.same(merged == whole, || format!("the merged reports of all runs are not that of their {} wires", all.len()));
    tally.remarks("wire of a drift run reported", all.len() as u64);
}

/// The drifts that a run of a random circuit leaves.
fn run_drifts(tally: &mut Tally, source: &mut Source, keys: &Keys) -> Vec<u32> {
    let (inputs, gates) = (1 + source.below(5) as usize, source.below(20) as usize);
    let bytes = valid(source, KINDS, inputs, gates, 1);
    let circuit = read(&bytes).ok().expect("a valid circuit");
    let bits: Vec<bool> = (0..inputs).map(|_| source.below(2) == 1).collect();
    let ins: Vec<u32> = bits.iter().flat_map(|bit| keys.encrypt_spread(source, *bit, 4e6)).collect();
    let n = keys.p[0] as usize + 1;
    let mut args: Vec<Arg> = [&keys.switching, &keys.bootstrapping, &keys.key_lv0, &keys.key_lv1].map(|words| Arg::Words(words.clone())).into_iter().collect();
    args.extend([Arg::Bytes(bytes), Arg::Words(ins), Arg::Bytes(bits.iter().map(|bit| *bit as u8).collect())]);
    args.extend([circuit.wires() * n, n, circuit.wires()].map(|len| Arg::Words(vec![0; len])));
    let answer = egl_drift_run(&keys.p, &mut args);
    tally.same(answer as u32 == 0, || format!("drift run at {:?}: answer {answer:#x}", keys.p));
    args[9].w().to_vec()
}
