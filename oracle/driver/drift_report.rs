//! A report over many wires' drifts, and the merge of two, by the words of document 02, 2026-05, and its reading. No wire is counted on the way through a list: the absolute
//! values are sorted, the wires of a size are those between two powers of two, and the largest is the greatest of all pairs of an absolute value and its place.

use std::cmp::Reverse;

/// A report's words: a count for each size from 0 to 32, then these.
pub const SIZES: usize = 33;
pub const LARGEST: usize = 33;
pub const WIRE: usize = 34;
pub const TOTAL: usize = 35;
pub const WORDS: usize = 36;

/// The most wires of a report.
pub const MOST: usize = 65_535;

/// A drift's absolute value; 32 signed bits have none for -2^31.
pub fn absolute(drift: u32) -> i64 {
    i64::from(drift as i32).abs()
}

/// The report of these drifts, or the number that refuses it. So many words has the slice that it is written to.
pub fn of(drifts: &[u32], out_len: usize) -> Result<Vec<u32>, u32> {
    if out_len != WORDS {
        return Err(2);
    }
    if drifts.len() > MOST {
        return Err(13);
    }
    let mut sorted: Vec<i64> = drifts.iter().map(|drift| absolute(*drift)).collect();
    sorted.sort_unstable();
    // a value has at most so many bits exactly where it is below that power of two
    let ends: Vec<usize> = (0..SIZES).map(|bits| sorted.partition_point(|value| *value < 1 << bits)).collect();
    let mut out = vec![ends[0] as u32];
    out.extend(ends.windows(2).map(|pair| (pair[1] - pair[0]) as u32));
    let largest = drifts.iter().enumerate().max_by_key(|(wire, drift)| (absolute(**drift), Reverse(*wire)));
    let (wire, drift) = largest.map_or((0, 0), |(wire, drift)| (wire as u32, *drift));
    out.extend([drift, wire, drifts.len() as u32]);
    Ok(out)
}

/// Which of two records a merge takes the largest from: of those with wires the one whose largest is the greatest in absolute value, the first at a tie; the first where neither has wires.
pub fn taken(records: [&[u32]; 2]) -> usize {
    let with_wires = [0, 1].into_iter().filter(|at| records[*at][TOTAL] != 0);
    with_wires.max_by_key(|at| (absolute(records[*at][LARGEST]), Reverse(*at))).unwrap_or(0)
}

/// The merge of two records of any words, or the number that refuses it. So many words has the slice that it is written to.
pub fn merged(first: &[u32], second: &[u32], out_len: usize) -> Result<Vec<u32>, u32> {
    if [first.len(), second.len(), out_len] != [WORDS; 3] {
        return Err(2);
    }
    let sum = |at: usize| u64::from(first[at]) + u64::from(second[at]);
    let modulo = |sum: u64| (sum % (1 << 32)) as u32;
    if sum(TOTAL) > MOST as u64 {
        return Err(13);
    }
    let mut out: Vec<u32> = (0..SIZES).map(|size| modulo(sum(size))).collect();
    // the first's wires stand in front of the second's
    let (from, front) = [(first, 0), (second, u64::from(first[TOTAL]))][taken([first, second])];
    out.extend([from[LARGEST], modulo(front + u64::from(from[WIRE])), modulo(sum(TOTAL))]);
    Ok(out)
}
