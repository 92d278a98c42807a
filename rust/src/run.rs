//! Runs of a circuit on encrypted bits: all at once, or gate by gate with progress.

use crate::{ffi, Circuit, CloudKey, Refusal};
use std::fmt;

/// Runs of the whole circuit in one call.
impl Circuit {
    /// Runs the circuit with everything lent: `ins` has inputs * (n + 1) words, `wires` (inputs + gates) * (n + 1), `out` outputs * (n + 1).
    /// Afterwards `wires` holds the ciphertext of every wire in wire order. Refused with 2 for other lengths, and then nothing is written.
    pub fn run_encrypted(&self, key: CloudKey<'_>, ins: &[u32], wires: &mut [u32], out: &mut [u32]) -> Result<(), Refusal> {
        Refusal::of_answer(ffi::run_encrypted(key.params(), key.keys(), self.bytes(), ins, wires, out)).map(|_| ())
    }

    /// Runs the circuit and gives the outputs' ciphertexts one after another. Refused with 2 where `ins` has not inputs * (n + 1) words.
    pub fn evaluate(&self, key: CloudKey<'_>, ins: &[u32]) -> Result<Vec<u32>, Refusal> {
        let words = |ciphertexts: usize| ciphertexts.saturating_mul(key.lengths().ciphertext);
        let mut wires = vec![0; words(self.wires())];
        let mut out = vec![0; words(self.outputs().len())];
        self.run_encrypted(key, ins, &mut wires, &mut out)?;
        Ok(out)
    }
}

/// How far a run is, or a column.
#[derive(Debug, Clone, Copy, PartialEq, Eq, Hash)]
pub struct Progress {
    /// Gates that are done; a column has one for each pair.
    pub done: usize,
    /// Gates of the circuit, or pairs of the column.
    pub total: usize,
}

/// A run gate by gate, for callers that show progress or stop in between. Its words are those of [`Circuit::evaluate`].
///
/// It is an iterator: each `next` does one gate and tells how far the run is.
///
/// ```no_run
/// # fn show(circuit: &egl::Circuit, key: egl::CloudKey<'_>, ins: &[u32]) -> Result<Vec<u32>, egl::Refusal> {
/// let mut run = egl::Run::start(circuit, key, ins)?;
/// while let Some(progress) = run.step()? {
///     eprintln!("{} of {}", progress.done, progress.total);
/// }
/// run.outputs()
/// # }
/// ```
#[derive(Clone)]
pub struct Run<'a> {
    circuit: &'a Circuit,
    key: CloudKey<'a>,
    wires: Vec<u32>,
    done: usize,
}

impl<'a> Run<'a> {
    /// Starts with the inputs' ciphertexts, one after another. Refused with 2 where they are not inputs * (n + 1) words.
    pub fn start(circuit: &'a Circuit, key: CloudKey<'a>, ins: &[u32]) -> Result<Run<'a>, Refusal> {
        let words = |ciphertexts: usize| ciphertexts.saturating_mul(key.lengths().ciphertext);
        if ins.len() != words(circuit.inputs()) {
            return Err(Refusal::Length);
        }
        let mut wires = ins.to_vec();
        wires.resize(words(circuit.wires()), 0);
        Ok(Run { circuit, key, wires, done: 0 })
    }

    /// How far the run is.
    pub fn progress(&self) -> Progress {
        Progress { done: self.done, total: self.circuit.gates() }
    }

    /// Does the next gate and tells how far the run is then; nothing where all gates are done.
    pub fn step(&mut self) -> Result<Option<Progress>, Refusal> {
        if self.done >= self.circuit.gates() {
            return Ok(None);
        }
        Refusal::of_answer(ffi::run_gate(self.key.params(), self.key.keys(), self.circuit.bytes(), self.done, &mut self.wires))?;
        self.done = self.done.saturating_add(1);
        Ok(Some(self.progress()))
    }

    /// Does all gates that are left, tells `watch` after each, and gives the outputs.
    pub fn finish(mut self, mut watch: impl FnMut(Progress)) -> Result<Vec<u32>, Refusal> {
        while let Some(progress) = self.step()? {
            watch(progress);
        }
        self.outputs()
    }

    /// The ciphertext of a wire, n + 1 words, once it is known: an input's at once, a gate's when it is done.
    pub fn wire(&self, wire: usize) -> Option<&[u32]> {
        let known = self.circuit.inputs().saturating_add(self.done);
        if wire >= known {
            return None;
        }
        self.wires.chunks_exact(self.key.lengths().ciphertext).nth(wire)
    }

    /// The ciphertexts of all wires in wire order; those of gates that are not done are zero.
    pub fn wires(&self) -> &[u32] {
        &self.wires
    }

    /// The outputs' ciphertexts, one after another. Refused with 2 while a gate that an output names is not done.
    pub fn outputs(&self) -> Result<Vec<u32>, Refusal> {
        let mut out = Vec::new();
        for wire in self.circuit.outputs() {
            out.extend_from_slice(self.wire(*wire).ok_or(Refusal::Length)?);
        }
        Ok(out)
    }
}

impl Iterator for Run<'_> {
    type Item = Result<Progress, Refusal>;

    fn next(&mut self) -> Option<Self::Item> {
        self.step().transpose()
    }

    fn size_hint(&self) -> (usize, Option<usize>) {
        // A refused step leaves the run where it is, so there is no upper bound.
        (self.circuit.gates().saturating_sub(self.done), None)
    }
}

/// The wires are long: their words stay out of logs.
impl fmt::Debug for Run<'_> {
    fn fmt(&self, f: &mut fmt::Formatter<'_>) -> fmt::Result {
        f.debug_struct("Run").field("progress", &self.progress()).finish_non_exhaustive()
    }
}
