//! Comparing: each case's call against what it must leave. The number that it must give comes from `table`, the contents from the
//! routine's reference (the original, or the exact steps of `exact`).

use crate::case::{Arg, Routine, Set, Slot};
use crate::draw::{faulty, good};
use crate::sizes::Sizes;
use crate::source::Source;
use crate::table;
use std::collections::BTreeMap;

/// What was compared, and what differed.
#[derive(Default)]
pub struct Tally {
    pub cases: u64,
    /// How often each number was to be given.
    pub refusals: BTreeMap<u32, u64>,
    pub words: u64,
    pub differences: u64,
    pub notes: Vec<String>,
    /// Things worth telling that are no difference, with how often they were met.
    pub remarks: Vec<(&'static str, u64)>,
    /// Where a list is asked for: the lines of the cases, in place of calls.
    pub list: Option<Vec<String>>,
}

impl Tally {
    /// One comparison of any kind.
    pub fn same(&mut self, same: bool, what: impl FnOnce() -> String) {
        self.cases += 1;
        self.words += 1;
        if !same {
            self.differ(what());
        }
    }

    /// One comparison of words.
    pub fn same_words(&mut self, got: &[u32], want: &[u32], what: impl FnOnce() -> String) {
        self.words += want.len() as u64;
        self.same(got == want, what);
    }

    pub fn differ(&mut self, what: String) {
        self.differences += 1;
        if self.differences <= 5 {
            self.notes.push(what);
        }
    }

    /// A call that was to be refused with this number, or with 0 to be done.
    pub fn refused(&mut self, number: u32) {
        if number != 0 {
            *self.refusals.entry(number).or_default() += 1;
        }
    }

    pub fn remark(&mut self, what: &'static str) {
        self.remarks(what, 1);
    }

    pub fn remarks(&mut self, what: &'static str, times: u64) {
        match self.remarks.iter_mut().find(|r| r.0 == what) {
            Some(r) => r.1 += times,
            None => self.remarks.push((what, times)),
        }
    }

    /// One case against its reference.
    pub fn check(&mut self, r: &Routine, set: &Set, p: &[u32; 6], args: Vec<Arg>) {
        let mut wanted = table::answer(p, r.slots, &args);
        let number = wanted as u32;
        let mut want = args.clone();
        if number == 0 && !(r.reference)(set, &mut want) {
            return;
        }
        if let (Some(Slot::Value), true) = (r.slots.last(), number != 0) {
            *want.last_mut().unwrap() = Arg::Num(wanted >> 32);
            wanted = number as u64;
        }
        if let Some(list) = &mut self.list {
            return list.push(line(r, p, &args, number, &want));
        }
        let mut got = args;
        let mut answer = (r.call)(p, &mut got);
        if let Some(Slot::Value) = r.slots.last() {
            *got.last_mut().unwrap() = Arg::Num(answer >> 32);
            answer &= u32::MAX as u64;
        }
        self.cases += 1;
        self.refused(number);
        self.words += 1;
        if answer != wanted {
            self.differ(format!("{} at {p:?}: answer {answer:#x}, wanted {wanted:#x}", r.name));
        }
        for (i, slot) in r.slots.iter().enumerate() {
            if let Slot::Out(..) | Slot::CiphersOut(_) | Slot::WordsOut(_) | Slot::EachPairOut(_) = slot {
                self.words += got[i].len() as u64;
            }
            if let Some(k) = got[i].differs(&want[i]) {
                self.differ(format!("{} at {p:?}: argument {i} differs at {k} (answer {answer:#x}, wanted {wanted:#x})", r.name));
                break;
            }
        }
    }
}

/// A case as a line of numbers: routine, parameters, arguments in order, then the number and
/// each lent slice that may be written, as it stands afterwards, or the value beside the number. Hex words, `|` between parts.
fn line(r: &Routine, p: &[u32; 6], args: &[Arg], number: u32, want: &[Arg]) -> String {
    let mut out = format!("{} {}", r.name, p.map(|x| format!("{x:x}")).join(" "));
    for (_, a) in r.slots.iter().zip(args).filter(|(slot, _)| !matches!(slot, Slot::Value)) {
        out += &format!(" | {}", a.text());
    }
    out += &format!(" => {number}");
    for (slot, a) in r.slots.iter().zip(want) {
        if let Slot::Out(..) | Slot::CiphersOut(_) | Slot::WordsOut(_) | Slot::EachPairOut(_) | Slot::Value = slot {
            out += &format!(" | {}", a.text());
        }
    }
    out
}

/// How much slower than plain code the library runs here: an emulator takes its time.
pub const SLOW: usize = if cfg!(bridge) { 20 } else { 1 };

/// The most cases of a routine at one set: through the bridge a call has a price of its own.
const MOST: usize = if cfg!(bridge) { 400 } else { 1200 };

/// The routine's cases for one set: as many as its cost allows, then the refusals.
pub fn run(tally: &mut Tally, r: &Routine, set: &Set, budget: usize, refusals: usize) {
    let mut source = Source::new(crate::SEED, &format!("{} {}", r.name, set.name));
    let cost = (r.cost)(&Sizes::of(&set.p)).max(1);
    let budget = budget / SLOW;
    if cost <= 40 * budget {
        for _ in 0..(budget / cost).clamp(1, MOST) {
            let args = good(&mut source, r, &set.p);
            tally.check(r, set, &set.p, args);
        }
    }
    for _ in 0..refusals {
        let (p, args) = faulty(&mut source, r);
        if table::number(&p, r.slots, &args) != 0 {
            tally.check(r, set, &p, args);
        }
    }
}
