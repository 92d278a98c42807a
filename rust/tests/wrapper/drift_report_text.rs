//! Drift reports as text: a small report's words for words, bars and shares for any counts.

use crate::seeded::Seeded;
use egl::DriftReport;

/// Five wires: sizes 26, 28, 28, 29 and 30.
fn small() -> DriftReport {
    DriftReport::of(&[-(1 << 25), 1 << 27, (1 << 28) - 1, 1 << 28, -(1 << 29)]).unwrap()
}

/// A record with these counts; the total is their sum.
fn with_counts(counts: &[(usize, u32)]) -> DriftReport {
    let mut words = [0; DriftReport::WORDS];
    for (size, count) in counts {
        words[*size] = *count;
        words[35] += *count;
    }
    DriftReport::from_words(words)
}

#[test]
fn the_line() {
    assert_eq!(small().to_string(), "drifts of 5 wires: the largest is -536870912, of wire 4; its margin is -1 bits, outside");
    let one = DriftReport::of(&[(1 << 29) - 1]).unwrap();
    assert_eq!(one.to_string(), "drifts of 1 wire: the largest is 536870911, of wire 0; its margin is 0 bits, inside");
    let two = DriftReport::of(&[1, -(1 << 27)]).unwrap();
    assert_eq!(two.to_string(), "drifts of 2 wires: the largest is -134217728, of wire 1; its margin is 1 bit, inside");
    assert_eq!(DriftReport::empty().to_string(), "drifts of 0 wires");
}

#[test]
fn the_table() {
    let table = "\
bits            absolute value  wires     share
  26    33554432 to   67108863      1   20.000%
  27    67108864 to  134217727      0    0.000%
  28   134217728 to  268435455      2   40.000%
  29   268435456 to  536870911      1   20.000%
  30   536870912 to 1073741823      1   20.000%
";
    assert_eq!(small().table(), table);
    let empty = "\
bits            absolute value  wires     share
  29   268435456 to  536870911      0         -
";
    assert_eq!(DriftReport::empty().table(), empty);
    let all = with_counts(&[(0, 1), (32, 65_534)]).table();
    let rows: Vec<&str> = all.lines().skip(1).collect();
    assert_eq!((rows.len(), rows[0], rows[1]), (33, "   0                         0      1    0.002%", "   1                         1      0    0.000%"));
    assert_eq!(rows[2], "   2           2 to          3      0    0.000%");
    assert_eq!(rows[31..], ["  31  1073741824 to 2147483647      0    0.000%", "  32                2147483648  65534   99.998%"]);
}

#[test]
fn the_chart() {
    let chart = "\
drifts of 5 wires by size in bits; the longest bar is 2 wires
bits  wires
  26      1  #####
  27      0
  28      2  ##########
  29      1  #####
---- margin at 29 bits (2^29, an eighth of a turn): inside above, outside below ----
  30      1  #####
These are wires' drifts. What is brought into rotations is not counted:
that a run's outputs are right, its `inside` tells, and not this chart.
";
    assert_eq!(small().chart(10), chart);
    let empty = "\
drifts of 0 wires by size in bits; the longest bar is 0 wires
bits  wires
  29      0
---- margin at 29 bits (2^29, an eighth of a turn): inside above, outside below ----
These are wires' drifts. What is brought into rotations is not counted:
that a run's outputs are right, its `inside` tells, and not this chart.
";
    assert_eq!(DriftReport::empty().chart(10), empty);
}

/// The lines of a chart without its head and the two at its end.
fn lines(report: &DriftReport, width: u16) -> Vec<String> {
    let chart = report.chart(width);
    let lines: Vec<String> = chart.lines().skip(2).map(str::to_string).collect();
    lines[..lines.len() - 2].to_vec()
}

/// Where nothing is inside, or nothing outside, the margin line is there all the same.
#[test]
fn the_margin_line_is_always_there() {
    let margin = "---- margin at 29 bits (2^29, an eighth of a turn): inside above, outside below ----";
    assert_eq!(lines(&with_counts(&[(31, 1)]), 3), ["  29      0", margin, "  30      0", "  31      1  ###"]);
    assert_eq!(lines(&with_counts(&[(28, 1)]), 3), ["  28      1  ###", "  29      0", margin]);
    for size in 0..=32 {
        let lines = lines(&with_counts(&[(size, 7)]), 5);
        assert_eq!(lines.iter().filter(|line| *line == margin).count(), 1);
        let (above, below) = lines.split_at(lines.iter().position(|line| line == margin).unwrap());
        assert_eq!((above.len(), below.len() - 1), (30 - size.min(29), size.max(29) - 29), "{size}");
        assert_eq!(lines.iter().filter(|line| line.ends_with("  #####")).count(), 1, "{size}");
    }
}

/// The marks of each size's bar.
fn marks(report: &DriftReport, width: u16) -> Vec<usize> {
    let bars = lines(report, width).into_iter().filter(|line| !line.starts_with('-'));
    bars.map(|line| line.chars().filter(|mark| *mark == '#').count()).collect()
}

#[test]
fn bars_have_their_part_of_the_width() {
    for (counts, width, meant) in [
        ([1, 1, 65_533], 50, [1, 1, 50]),
        ([65_535, 0, 0], 50, [50, 0, 0]),
        ([1, 2, 3], 50, [17, 33, 50]),
        ([1, 2, 4], 2, [1, 1, 2]),
        ([3, 2, 4], 2, [2, 1, 2]),
        ([1, 100, 65_434], 0, [1, 1, 1]),
        ([1, 655, 64_879], 1, [1, 1, 1]),
        ([1, 32_767, 32_767], u16::MAX, [2, 65_535, 65_535]),
    ] {
        let report = with_counts(&[(27, counts[0]), (28, counts[1]), (29, counts[2])]);
        let start = counts.iter().position(|count| *count > 0).unwrap();
        assert_eq!(marks(&report, width), meant[start..], "{counts:?} at {width}");
    }
    // Every count beside the largest that a report can have: never none, never more than the width, never falling, and right to half a mark.
    for width in [1u16, 2, 7, 50, 80] {
        let mut before = 1;
        for count in (1..=400).chain((401..=65_535).step_by(331)).chain([65_534, 65_535]) {
            let report = DriftReport::from_words(with_counts(&[(28, count), (29, 65_535)]).words());
            let got = marks(&report, width);
            assert!(got[1] == usize::from(width) && got[0] >= before && got[0] <= got[1], "{count} at {width}: {got:?}");
            let off = (got[0] as i64 * 65_535 - i64::from(count) * i64::from(width)).abs() * 2;
            assert!(off <= 65_535 || got[0] == 1, "{count} at {width}: {got:?}");
            before = got[0];
        }
    }
}

#[test]
fn the_csv() {
    let mut text = String::from("size,count\n");
    for size in 0..33 {
        text += &format!("{size},{}\n", [1, 0, 2, 1, 1].get(26usize.abs_diff(size)).filter(|_| size >= 26).unwrap_or(&0));
    }
    text += "largest,-536870912\nwire,4\ntotal,5\n";
    assert_eq!(small().csv(), text);
    assert_eq!(small().csv().lines().count(), 37);
    let empty = DriftReport::empty().csv();
    assert!(empty.starts_with("size,count\n0,0\n1,0\n") && empty.ends_with("\n32,0\nlargest,0\nwire,0\ntotal,0\n"), "{empty}");
}

/// Words that no report has are printed as they are.
#[test]
fn any_record_is_printed() {
    let mut seeded = Seeded(137);
    for _ in 0..300 {
        let mut words = [0; DriftReport::WORDS];
        words.iter_mut().for_each(|word| *word = [0, 1, u32::MAX, 1 << 31, seeded.next() as u32][seeded.below(5)]);
        let report = DriftReport::from_words(words);
        let (table, csv) = (report.table(), report.csv());
        assert!(table.lines().count() >= 2 && csv.lines().count() == 37 && !report.to_string().is_empty());
        for width in [0, 1, 60] {
            assert!(marks(&report, width).iter().all(|marks| *marks <= usize::from(width.max(1))));
        }
    }
    let most = DriftReport::from_words([u32::MAX; DriftReport::WORDS]);
    assert_eq!(most.to_string(), "drifts of 4294967295 wires: the largest is -1, of wire 4294967295; its margin is 28 bits, inside");
    assert_eq!(marks(&most, u16::MAX), [65_535; 33]);
    // More wires in a size than in all, and some where there are none.
    let mut words = [0; DriftReport::WORDS];
    (words[29], words[35]) = (u32::MAX, 1);
    assert!(DriftReport::from_words(words).table().ends_with(" 4294967295  429496729500.000%\n"));
    words[35] = 0;
    assert!(DriftReport::from_words(words).table().ends_with(" 4294967295         -\n"));
}
