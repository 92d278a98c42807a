//! Drift reports, held to records that are worked out here from the sentences of document 02: what is counted, what merges, what is refused.

use crate::seeded::{circuit, keys, little, Seeded};
use crate::version::stated;
use egl::{inside, margin, size, DriftReport, DriftRun, Drifts, Refusal};

/// Words of a record: a count for each size, the largest drift, its wire, the total.
const WORDS: usize = 36;
const LARGEST: usize = 33;
const WIRE: usize = 34;
const TOTAL: usize = 35;
/// The most wires that a report is of.
const MOST: usize = 65_535;

/// The bits of a drift's absolute value: how often it can be halved until nothing is left.
fn bits(drift: i32) -> usize {
    let mut left = i64::from(drift).abs();
    let mut bits = 0;
    while left > 0 {
        left /= 2;
        bits += 1;
    }
    bits
}

fn larger(drift: u32, than: u32) -> bool {
    i64::from(drift as i32).abs() > i64::from(than as i32).abs()
}

/// The record of these drifts.
fn counted(drifts: &[i32]) -> [u32; WORDS] {
    let mut record = [0; WORDS];
    for (place, drift) in drifts.iter().enumerate() {
        record[bits(*drift)] += 1;
        if place == 0 || larger(*drift as u32, record[LARGEST]) {
            record[LARGEST] = *drift as u32;
            record[WIRE] = place as u32;
        }
        record[TOTAL] += 1;
    }
    record
}

/// What merging two records gives, those that no drifts have too; none where the totals pass the limit.
fn joined(first: &[u32; WORDS], second: &[u32; WORDS]) -> Option<[u32; WORDS]> {
    if u64::from(first[TOTAL]) + u64::from(second[TOTAL]) > MOST as u64 {
        return None;
    }
    let mut record = *first;
    for place in (0..LARGEST).chain([TOTAL]) {
        record[place] = record[place].wrapping_add(second[place]);
    }
    if second[TOTAL] != 0 && (first[TOTAL] == 0 || larger(second[LARGEST], first[LARGEST])) {
        record[LARGEST] = second[LARGEST];
        record[WIRE] = first[TOTAL].wrapping_add(second[WIRE]);
    }
    Some(record)
}

/// The report of these drifts, held to the count here.
fn report(drifts: &[i32]) -> DriftReport {
    let report = DriftReport::of(drifts).unwrap();
    assert!(report.words() == counted(drifts), "{report:?} of {} drifts", drifts.len());
    let words: Vec<u32> = drifts.iter().map(|drift| *drift as u32).collect();
    assert_eq!(DriftReport::of_words(&words), Ok(report));
    report
}

/// Drifts of all sizes, the small ones as often as the large.
fn drifts(seeded: &mut Seeded, count: usize) -> Vec<i32> {
    (0..count).map(|_| seeded.next() as i32 >> seeded.below(33).min(31)).collect()
}

#[test]
fn the_numbers_are_the_headers() {
    assert_eq!(stated("EGL_DRIFT_REPORT_WORDS"), Some(DriftReport::WORDS as u32));
    assert_eq!(stated("EGL_DRIFT_REPORT_WIRES"), Some(DriftReport::WIRES));
    assert_eq!(stated("EGL_DRIFT_REPORT_INSIDE"), Some(DriftReport::INSIDE));
    assert!(include_str!("../../../include/egl.h").contains(&format!("uint32_t counts[{}];", DriftReport::SIZES)));
    assert_eq!((DriftReport::WORDS, DriftReport::SIZES, DriftReport::WIRES as usize), (WORDS, LARGEST, MOST));
}

#[test]
fn every_size_has_its_count() {
    let ends = |size: u32| {
        let (low, high) = if size == 0 { (0, 0) } else { (1i64 << (size - 1), (1i64 << size) - 1) };
        [low, high, -low, -high].into_iter().filter_map(|drift| i32::try_from(drift).ok())
    };
    let mut all = Vec::new();
    for bits in 0..=32 {
        for drift in ends(bits) {
            let one = report(&[drift]);
            assert_eq!((size(drift), one.count(bits), one.total(), one.largest(), one.wire()), (bits, 1, 1, drift, 0), "{drift}");
            assert_eq!((one.counts().iter().sum::<u32>(), one.margin()), (1, Some(29 - bits as i32)), "{drift}");
            assert_eq!((margin(drift), inside(drift)), (29 - bits as i32, bits <= DriftReport::INSIDE), "{drift}");
            all.push(drift);
        }
    }
    let all = report(&all);
    assert!(all.counts().iter().all(|count| *count > 0), "{all:?}");
    assert_eq!((all.counts().len(), all.largest()), (33, i32::MIN));
    assert_eq!([33, 34, 35, u32::MAX].map(|bits| all.count(bits)), [0; 4]);
}

#[test]
fn no_wire_is_zeros() {
    let empty = DriftReport::empty();
    assert_eq!((empty.words(), empty.margin()), ([0; WORDS], None));
    assert_eq!((report(&[]), DriftReport::default(), DriftReport::merged([])), (empty, empty, Ok(empty)));
}

#[test]
fn a_tie_goes_to_the_earliest() {
    for (drifts, largest, wire) in [
        (&[5, -5][..], 5, 0),
        (&[-5, 5], -5, 0),
        (&[0, 0, 0], 0, 0),
        (&[0, -1, 1, 1], -1, 1),
        (&[7, -8, 8, 15, -15, 14], 15, 3),
        (&[i32::MAX, -i32::MAX], i32::MAX, 0),
        (&[-i32::MAX, i32::MAX, i32::MIN, i32::MIN], i32::MIN, 2),
        (&[i32::MIN, i32::MAX], i32::MIN, 0),
    ] {
        for cut in 0..=drifts.len() {
            let (first, second) = drifts.split_at(cut);
            let both = report(first).merge(&report(second)).unwrap();
            assert_eq!((both, both.largest(), both.wire()), (report(drifts), largest, wire), "{drifts:?} at {cut}");
        }
    }
}

#[test]
fn random_drifts_are_counted() {
    let mut seeded = Seeded(130);
    for count in (0..40).chain([100, 1_000, 5_000]) {
        report(&drifts(&mut seeded, count));
    }
}

#[test]
fn at_most_65_535_wires() {
    let drifts = drifts(&mut Seeded(131), 2 * MOST);
    for count in [0, 1, MOST - 1, MOST] {
        assert_eq!(report(&drifts[..count]).total() as usize, count);
    }
    for count in [MOST + 1, MOST + 2, 2 * MOST] {
        let words: Vec<u32> = drifts[..count].iter().map(|drift| *drift as u32).collect();
        assert_eq!((DriftReport::of(&drifts[..count]), DriftReport::of_words(&words)), (Err(Refusal::ReportWires), Err(Refusal::ReportWires)), "{count}");
    }
    // The count that 16 bits do not hold, and the wire at the very end.
    assert_eq!(report(&vec![0; MOST]).count(0) as usize, MOST);
    let mut last = vec![-3; MOST];
    last[MOST - 1] = 4;
    assert_eq!((report(&last).largest(), report(&last).wire() as usize), (4, MOST - 1));
    let refusal = Refusal::ReportWires;
    assert_eq!((refusal.number(), refusal.place()), (13, 0));
    assert_eq!(refusal.to_string(), "refused (13): a drift report would be of more than 65,535 wires");
}

#[test]
fn merging_is_the_report_of_both() {
    let mut seeded = Seeded(132);
    for round in 0..300 {
        let count = seeded.below(60);
        let all = drifts(&mut seeded, count);
        let cut = seeded.below(count + 1);
        let (first, second) = (report(&all[..cut]), report(&all[cut..]));
        assert_eq!(first.merge(&second), Ok(report(&all)), "round {round}");
        let mut absorbed = first;
        absorbed.absorb(&second).unwrap();
        assert_eq!(absorbed, report(&all), "round {round}");
    }
    // In parts of any lengths, and in any brackets.
    let all = drifts(&mut seeded, 2_000);
    let mut parts = Vec::new();
    let mut left = all.as_slice();
    while !left.is_empty() {
        let (part, rest) = left.split_at(seeded.below(100).min(left.len()));
        parts.push(report(part));
        left = rest;
    }
    assert_eq!(DriftReport::merged(&parts), Ok(report(&all)));
    let later = parts.iter().rev().fold(DriftReport::empty(), |later, part| part.merge(&later).unwrap());
    assert_eq!(later, report(&all));
}

#[test]
fn merging_past_the_limit_is_13() {
    let drifts = drifts(&mut Seeded(133), MOST + 1);
    for cut in [0, 1, 2, 32_767, 32_768, MOST - 1, MOST] {
        let (first, second) = (report(&drifts[..cut]), report(&drifts[cut..MOST]));
        assert_eq!(first.merge(&second), Ok(report(&drifts[..MOST])), "{cut}");
        if cut > 0 {
            let mut kept = first;
            let more = report(&drifts[cut..]);
            assert_eq!((kept.merge(&more), kept.absorb(&more)), (Err(Refusal::ReportWires), Err(Refusal::ReportWires)), "{cut}");
            assert_eq!((kept, DriftReport::merged([&first, &more])), (first, Err(Refusal::ReportWires)), "{cut}");
        }
    }
}

/// Any words are taken for a record, and nothing overflows.
#[test]
fn records_from_anywhere() {
    let mut seeded = Seeded(134);
    let empty = DriftReport::empty();
    let few = [0, 1, 2, u32::MAX, 1 << 31, MOST as u32, MOST as u32 + 1];
    let (mut refused, mut without) = (0, 0);
    for round in 0..2_000 {
        let mut record = || {
            let mut record = [0; WORDS];
            record.iter_mut().for_each(|word| *word = if seeded.below(4) == 0 { few[seeded.below(few.len())] } else { seeded.next() as u32 });
            record[TOTAL] = match seeded.below(6) {
                0 => record[TOTAL],
                1 => few[seeded.below(few.len())],
                2 => 0,
                _ => seeded.below(40_000) as u32,
            };
            record
        };
        let (first, second) = (record(), record());
        let (one, other) = (DriftReport::from_words(first), DriftReport::from_words(second));
        assert_eq!((one.words(), other.words()), (first, second));
        assert_eq!((one.largest(), one.wire(), one.total()), (first[LARGEST] as i32, first[WIRE], first[TOTAL]));
        assert!((0..33).all(|bits| one.count(bits) == first[bits as usize]) && one.counts()[..] == first[..LARGEST]);
        let meant = joined(&first, &second).map(DriftReport::from_words).ok_or(Refusal::ReportWires);
        refused += usize::from(meant.is_err());
        assert_eq!(one.merge(&other), meant, "round {round}");
        // With no wire behind it a record stays itself unless it has more wires than a report may have. With none before it too, but that a record of no
        // wires loses its largest drift and its wire, which no report of none has.
        let if_it_fits = |record: DriftReport| if record.total() <= DriftReport::WIRES { Ok(record) } else { Err(Refusal::ReportWires) };
        assert_eq!(one.merge(&empty), if_it_fits(one), "round {round}");
        let mut behind = first;
        if behind[TOTAL] == 0 {
            (behind[LARGEST], behind[WIRE]) = (0, 0);
            without += 1;
        }
        assert_eq!(empty.merge(&one), if_it_fits(DriftReport::from_words(behind)), "round {round}");
    }
    assert!((200..1_800).contains(&refused) && without > 200, "{refused} refused, {without} without wires");
}

/// The report of a run is that of its drifts, gate by gate and at the end; the reports of many runs merge into that of all their drifts.
#[test]
fn runs_are_reported() {
    let (secret, cloud) = keys(135);
    let mut seeded = Seeded(136);
    let (mut all, mut reports) = (Vec::new(), Vec::new());
    for round in 0..12 {
        let (inputs, gates, outputs) = (seeded.below(6), 1 + seeded.below(12), 1 + seeded.below(4));
        let (circuit, _, _) = circuit(&mut seeded, inputs, gates, outputs);
        let plain = seeded.bits(inputs);
        let ins = secret.encrypt_bits(&plain, little(), &mut seeded.source()).unwrap();
        let whole = circuit.evaluate_drift(cloud.view(), &secret, &ins, &plain).unwrap();
        assert_eq!(whole.report(), Ok(report(&whole.drifts)), "round {round}");
        let mut run = DriftRun::start(&circuit, cloud.view(), &secret, &ins, &plain).unwrap();
        for known in inputs..=circuit.wires() {
            assert_eq!(run.report(), Ok(report(&whole.drifts[..known])), "round {round}, {known} wires");
            run.step().unwrap();
        }
        all.extend(whole.drifts);
        reports.push(run.report().unwrap());
    }
    assert_eq!(DriftReport::merged(&reports), Ok(report(&all)));
    // Drifts that somebody put together are reported too, or refused.
    let many = Drifts { outputs: Vec::new(), drifts: vec![1; MOST + 1], inside: true };
    assert_eq!(many.report(), Err(Refusal::ReportWires));
}
