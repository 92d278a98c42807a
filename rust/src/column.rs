//! Columns: the same gate on many pairs, in one call or over several threads with progress.

use crate::{ffi, CloudKey, Kind, Progress, Refusal};
use std::sync::{mpsc, Mutex, PoisonError};
use std::thread;

/// Columns. A kind of two operands, 3 to 12, on pairs of ciphertexts that stand one after another, a then b: `pairs` has count * 2 * (n + 1) words, `out`
/// count * (n + 1), a ciphertext for each pair. Each has the words of its gate on its pair alone; [`Kind::Xnor`] has its Boolean meaning, the words of
/// [`CloudKey::xor`] and then [`CloudKey::not`]. Refused with 2 for other lengths and with 9, place 0, for another kind, in this order, and then `out` is as it was.
impl CloudKey<'_> {
    /// The whole column in one call of the library. Refused with 2 also where `count` is so large that its words are more than a `usize` holds.
    pub fn column(&self, kind: Kind, count: usize, pairs: &[u32], out: &mut [u32]) -> Result<(), Refusal> {
        Refusal::of_answer(ffi::gate_column(self.params(), usize::from(kind.number()), count, pairs, self.keys(), out)).map(|_| ())
    }

    /// The same into new ciphertexts, one for each pair. Refused with 2 where the last pair is cut short.
    pub fn evaluate_column(&self, kind: Kind, pairs: &[u32]) -> Result<Vec<u32>, Refusal> {
        let one = self.lengths().ciphertext;
        let count = pairs.chunks_exact(one.saturating_mul(2)).len();
        let mut out = vec![0; count.saturating_mul(one)];
        self.column(kind, count, pairs, &mut out)?;
        Ok(out)
    }

    /// The column over so many threads, the caller's own among them (0 counts as 1, and there are never more than pairs; more than processors gain nothing). Words
    /// and refusals are those of [`CloudKey::column`]: each pair is one call of the library, and the calls share nothing that is written. A thread that is free takes
    /// the next pair. Where the system refuses to start a thread, those that run do the work, at worst the caller's alone.
    ///
    /// `watch` is told after each pair how many are done, one more each time, the last time all of them. It is called in the caller's thread between two pairs that this does
    /// itself: so it may hear late by the time of a gate, and while it runs the caller's thread does no pair. Where it panics, the others end after the pair that
    /// they are at, the panic goes on to the caller, and `out` has the results of some pairs.
    pub fn column_in_threads(
        &self,
        kind: Kind,
        count: usize,
        pairs: &[u32],
        out: &mut [u32],
        threads: usize,
        mut watch: impl FnMut(Progress),
    ) -> Result<(), Refusal> {
        let one = self.lengths().ciphertext;
        let two = one.saturating_mul(2);
        if count.checked_mul(two) != Some(pairs.len()) || count.checked_mul(one) != Some(out.len()) {
            // The one call refuses this, by its own order of checks.
            return self.column(kind, count, pairs, out);
        }
        // A column of no pairs writes nothing: the library's own checks of the rest. What passes them is refused for no pair.
        self.column(kind, 0, &[], &mut [])?;

        let parts = Mutex::new(pairs.chunks_exact(two).zip(out.chunks_exact_mut(one)));
        // Does the next pair that nobody has taken. Only the taking is under the lock.
        let work = || {
            let part = parts.lock().unwrap_or_else(PoisonError::into_inner).next();
            part.map(|(pair, place)| self.column(kind, 1, pair, place))
        };
        let mut done = 0usize;
        let mut hear = |answer: Result<(), Refusal>| {
            done = done.saturating_add(1);
            answer.map(|()| watch(Progress { done, total: count }))
        };
        thread::scope(|scope| {
            let (tell, told) = mpsc::channel();
            for _ in 1..threads.min(count) {
                let tell = tell.clone();
                // Nobody listens any more where the caller's thread has left: `tell` then fails.
                let other = move || while work().map_or(false, |answer| tell.send(answer).is_ok()) {};
                if thread::Builder::new().spawn_scoped(scope, other).is_err() {
                    break;
                }
            }
            // What is told ends when the last thread has dropped its end.
            drop(tell);
            while let Some(answer) = work() {
                hear(answer)?;
                told.try_iter().try_for_each(&mut hear)?;
            }
            told.iter().try_for_each(&mut hear)
        })
    }
}
