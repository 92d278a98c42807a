//! Reports as text: a line, a table, a chart in plain characters, CSV. Shares and bars are reckoned in whole numbers.

use crate::{inside, DriftReport};
use std::fmt;

/// What a chart's margin line says. Sizes rise downward.
const MARGIN: &str = "---- margin at 29 bits (2^29, an eighth of a turn): inside above, outside below ----\n";
/// What a chart is not: a wire can be inside and what it brings into a rotation not.
const NOTE: &str =
    "These are wires' drifts. What is brought into rotations is not counted:\nthat a run's outputs are right, its `inside` tells, and not this chart.\n";

/// The summary, one line: the number of wires, the largest drift, its wire, its margin in bits.
impl fmt::Display for DriftReport {
    fn fmt(&self, f: &mut fmt::Formatter<'_>) -> fmt::Result {
        let (total, largest, wire) = (wires(self.total()), self.largest(), self.wire());
        match self.margin() {
            None => write!(f, "drifts of {total}"),
            Some(margin) => {
                let (margin, side) = (several(margin.into(), "bit"), if inside(largest) { "inside" } else { "outside" });
                write!(f, "drifts of {total}: the largest is {largest}, of wire {wire}; its margin is {margin}, {side}")
            }
        }
    }
}

/// Reports as text. Each line ends with a line feed.
impl DriftReport {
    /// A table: each size, the range of the absolute value, how many wires had it, and their share of all in percent. It has the sizes from the smallest to the
    /// largest that occurs, and where 29 bits are not between these, those up or down to 29 too.
    pub fn table(&self) -> String {
        let mut text = format!("{:>4}  {:>24}  {:>5}  {:>8}\n", "bits", "absolute value", "wires", "share");
        for (size, count) in self.lines() {
            text.push_str(&format!("{size:>4}  {:>24}  {count:>5}  {:>8}\n", range(size), percent(count, self.total())));
        }
        text
    }

    /// A bar chart: a line for each size that the table has, with its count and a bar; behind 29 bits a line that parts inside from outside. The longest bar has
    /// `width` marks, 0 counting as 1; the others have their part of it, to the nearest mark, and never none for a count that is not 0.
    pub fn chart(&self, width: u16) -> String {
        let most = self.counts().iter().copied().max().unwrap_or(0);
        let mut text = format!("drifts of {} by size in bits; the longest bar is {}\n", wires(self.total()), wires(most));
        text.push_str("bits  wires\n");
        for (size, count) in self.lines() {
            let line = format!("{size:>4}  {count:>5}  {}", bar(count, most, width.max(1)));
            text.push_str(line.trim_end());
            text.push('\n');
            if size == DriftReport::INSIDE {
                text.push_str(MARGIN);
            }
        }
        text.push_str(NOTE);
        text
    }

    /// Lines of two fields with a comma between: `size,count`; then each size from 0 to 32 bits and its count; then `largest`, `wire` and `total`, each with its number.
    pub fn csv(&self) -> String {
        let mut text = String::from("size,count\n");
        for (size, count) in self.sizes() {
            text.push_str(&format!("{size},{count}\n"));
        }
        text.push_str(&format!("largest,{}\nwire,{}\ntotal,{}\n", self.largest(), self.wire(), self.total()));
        text
    }

    /// Each size with its count.
    fn sizes(&self) -> impl Iterator<Item = (u32, u32)> + '_ {
        (0..).zip(self.counts().iter().copied())
    }

    /// The sizes that table and chart show: from the smallest to the largest that occurs, the margin's always among them.
    fn lines(&self) -> impl Iterator<Item = (u32, u32)> + '_ {
        let occurring = self.sizes().filter(|(_, count)| *count > 0);
        let (first, last) = occurring.fold((DriftReport::INSIDE, DriftReport::INSIDE), |(first, last), (size, _)| (first.min(size), last.max(size)));
        self.sizes().filter(move |(size, _)| (first..=last).contains(size))
    }
}

/// So many of what a word names.
fn several(count: i64, what: &str) -> String {
    format!("{count} {what}{}", if count == 1 { "" } else { "s" })
}

fn wires(count: u32) -> String {
    several(count.into(), "wire")
}

/// The absolute values of a size, in columns of ten. No drift's is above 2^31, the only one of 32 bits.
fn range(size: u32) -> String {
    let end = 1u64.checked_shl(size).unwrap_or(u64::MAX);
    let (low, high) = (end >> 1, end.saturating_sub(1).min(1 << 31));
    if low == high {
        low.to_string()
    } else {
        format!("{low} to {high:>10}")
    }
}

/// The whole number nearest to part * scale / all, the upper one of two alike; none where `all` is 0. The scales here are below 2^17, so nothing saturates.
fn nearest(part: u32, scale: u32, all: u32) -> Option<u64> {
    let all = u64::from(all);
    u64::from(part).saturating_mul(u64::from(scale)).saturating_add(all / 2).checked_div(all)
}

/// The share in percent to the nearest thousandth, since one of 65,535 wires would be 0.00. Of no wires there is no share.
fn percent(part: u32, all: u32) -> String {
    nearest(part, 100_000, all).map_or("-".to_string(), |share| format!("{}.{:03}%", share / 1_000, share % 1_000))
}

/// A count's bar where the largest count's has `width` marks.
fn bar(count: u32, most: u32, width: u16) -> String {
    let marks = nearest(count, u32::from(width), most).unwrap_or(0);
    // At most `width`, since no count is above the largest; at least 1 for a count that is not 0.
    let marks = u16::try_from(marks).unwrap_or(width).max(u16::from(count > 0));
    "#".repeat(usize::from(marks))
}
