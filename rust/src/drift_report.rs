//! A report over many wires' drifts: how many had each size, and the largest.

use crate::{ffi, margin, Refusal};

/// A report over many wires' drifts: how many wires had a drift of each size (see [`size`](crate::size)), the drift that is largest in absolute value, the earliest
/// at a tie, its wire, and the number of wires. Two reports merge into the one of the first's wires followed by the second's.
///
/// The library counts and merges. A report speaks of the drifts that it was given, those of wires, and not of what is brought into rotations: that a run's outputs are
/// right, [`Drifts::inside`](crate::Drifts::inside) or [`DriftRun::inside`](crate::DriftRun::inside) tells, and no report.
///
/// ```no_run
/// use egl::DriftReport;
///
/// let first = DriftReport::of(&[0, 3, -4])?;
/// let both = first.merge(&DriftReport::of(&[4])?)?;
/// assert_eq!((both.total(), both.largest(), both.wire(), both.count(3)), (4, -4, 2, 2));
/// print!("{both}\n{}", both.chart(40));
/// # Ok::<(), egl::Refusal>(())
/// ```
#[derive(Debug, Clone, Copy, PartialEq, Eq, Hash)]
pub struct DriftReport {
    counts: [u32; DriftReport::SIZES],
    largest: i32,
    wire: u32,
    total: u32,
}

impl DriftReport {
    /// How many sizes there are: 0 to 32 bits.
    pub const SIZES: usize = 33;
    /// The words of a record: a count for each size, the largest drift, its wire, the total.
    pub const WORDS: usize = 36;
    /// The most wires that a report is of.
    pub const WIRES: u32 = 65_535;
    /// The largest size that is inside: a drift of more bits is an eighth of a turn or more.
    pub const INSIDE: u32 = 29;

    /// The report of no wire: zeros. Merged with another report it gives the other, on either side (see [`DriftReport::merge`] for records that no drifts have).
    pub fn empty() -> DriftReport {
        let mut words = [0; DriftReport::WORDS];
        // A record of the right length is not refused; and what is refused leaves the zeros, which are that report.
        ffi::drift_report_empty(&mut words);
        DriftReport::from_words(words)
    }

    /// The report of these drifts, in their order. Refused with 13 where they are more than 65,535.
    pub fn of(drifts: &[i32]) -> Result<DriftReport, Refusal> {
        DriftReport::of_words(ffi::drift_words(drifts))
    }

    /// The same of drifts as [`Circuit::run_drift`](crate::Circuit::run_drift) leaves them, words to be read as signed.
    pub fn of_words(drifts: &[u32]) -> Result<DriftReport, Refusal> {
        written(|out| ffi::drift_report_of(drifts, out))
    }

    /// The report of this one's wires followed by the other's: a tie goes to this one's wire, and a wire of the other is moved up by this one's total. Refused
    /// with 13 where the totals add up to more than 65,535.
    ///
    /// Any records are merged, those that no drifts have too. Counts add modulo 2^32. The other's largest is taken exactly where the other's total is not 0 and
    /// this one's total is 0 or this one's largest is smaller in absolute value; its wire is then this one's total plus the other's wire, modulo 2^32. So,
    /// where it is not refused, a record with the empty report behind it stays as it is, and with the empty report before it too, but that a largest drift and
    /// a wire that stand beside a total of 0 become 0.
    pub fn merge(&self, other: &DriftReport) -> Result<DriftReport, Refusal> {
        written(|out| ffi::drift_report_merge(&self.words(), &other.words(), out))
    }

    /// Puts the other's wires behind this one's. Where that is refused, this one is as it was.
    pub fn absorb(&mut self, other: &DriftReport) -> Result<(), Refusal> {
        *self = self.merge(other)?;
        Ok(())
    }

    /// The report of many reports' wires, one after another; the empty one where there are none. Refused with 13 where they are more than 65,535 in all.
    pub fn merged<'a>(reports: impl IntoIterator<Item = &'a DriftReport>) -> Result<DriftReport, Refusal> {
        let mut all = DriftReport::empty();
        for report in reports {
            all.absorb(report)?;
        }
        Ok(all)
    }

    /// Takes a record: the counts, the largest drift, its wire, the total. Nothing is checked, for the library takes any record.
    pub fn from_words(words: [u32; DriftReport::WORDS]) -> DriftReport {
        let [counts @ .., largest, wire, total] = words;
        DriftReport { counts, largest: largest as i32, wire, total }
    }

    /// The record, to be stored or handed on.
    pub fn words(&self) -> [u32; DriftReport::WORDS] {
        let mut words = [0; DriftReport::WORDS];
        let last = [self.largest as u32, self.wire, self.total];
        words.iter_mut().zip(self.counts.iter().chain(&last)).for_each(|(word, value)| *word = *value);
        words
    }

    /// How many wires had a drift of so many bits; 0 for more bits than 32.
    pub fn count(&self, size: u32) -> u32 {
        self.counts.get(size as usize).copied().unwrap_or(0)
    }

    /// How many wires had each size, from 0 to 32 bits. A report's counts add up to its total.
    pub fn counts(&self) -> &[u32; DriftReport::SIZES] {
        &self.counts
    }

    /// The drift that is largest in absolute value, the earliest of several, in 2^-32 of a turn. 0 in the report of no wire.
    pub fn largest(&self) -> i32 {
        self.largest
    }

    /// The wire of the largest drift: its place in the report, from 0, over all runs that were merged.
    pub fn wire(&self) -> u32 {
        self.wire
    }

    /// Of how many wires the report is.
    pub fn total(&self) -> u32 {
        self.total
    }

    /// By how many bits the largest drift stays below 2^29 (see [`margin`]), negative where it is outside; nothing where there is no wire. It is the wires' margin
    /// and not that of rotations, which [`DriftRun::margin`](crate::DriftRun::margin) tells.
    pub fn margin(&self) -> Option<i32> {
        if self.total == 0 {
            return None;
        }
        Some(margin(self.largest))
    }
}

/// The report of no wire.
impl Default for DriftReport {
    fn default() -> DriftReport {
        DriftReport::empty()
    }
}

/// The report that a call of the library writes.
fn written(call: impl FnOnce(&mut [u32]) -> u64) -> Result<DriftReport, Refusal> {
    let mut words = [0; DriftReport::WORDS];
    Refusal::of_answer(call(&mut words))?;
    Ok(DriftReport::from_words(words))
}
