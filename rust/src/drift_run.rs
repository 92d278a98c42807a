//! A drift run gate by gate with progress: each wire's drift, each gate's worst brought-in drift, the margin of the whole.

use crate::{ffi, inside, lent, margin, Circuit, CloudKey, DriftReport, Progress, Refusal, Secrets};
use std::fmt;

/// What the gate just done tells.
#[derive(Debug, Clone, Copy, PartialEq, Eq, Hash)]
pub struct GateDrift {
    /// How far the run is, this gate included.
    pub progress: Progress,
    /// The gate, from 0.
    pub gate: usize,
    /// The drift of its wire, in 2^-32 of a turn.
    pub drift: i32,
    /// The drift brought into its rotation, of mux's two the one that is larger in absolute value; nothing for a gate that rotates nothing.
    pub worst: Option<i32>,
}

/// A drift run gate by gate, for callers that show progress or stop in between. Its words are those of [`Circuit::evaluate_drift`].
///
/// ```no_run
/// # fn show(circuit: &egl::Circuit, key: egl::CloudKey<'_>, secret: &egl::SecretKeys, ins: &[u32], bits: &[bool]) -> Result<Option<i32>, egl::Refusal> {
/// let mut run = egl::DriftRun::start(circuit, key, secret, ins, bits)?;
/// while let Some(gate) = run.step()? {
///     eprintln!("{} of {}: {:?}", gate.progress.done, gate.progress.total, gate.worst.map(egl::margin));
/// }
/// Ok(run.margin())
/// # }
/// ```
#[derive(Clone)]
pub struct DriftRun<'a> {
    circuit: &'a Circuit,
    key: CloudKey<'a>,
    secret: Secrets<'a>,
    wires: Vec<u32>,
    drifts: Vec<u32>,
    worst: Vec<Option<i32>>,
}

impl<'a> DriftRun<'a> {
    /// Starts with the inputs' ciphertexts, one after another, and the bits that they are meant to carry. Refused with 2, 4 for the secret keys, then with 2
    /// where the inputs are not inputs * (n + 1) words or the bits not as many as the inputs.
    pub fn start(circuit: &'a Circuit, key: CloudKey<'a>, secret: impl Into<Secrets<'a>>, ins: &[u32], plain: &[bool]) -> Result<DriftRun<'a>, Refusal> {
        let secret = secret.into();
        let words = |ciphertexts: usize| ciphertexts.saturating_mul(key.lengths().ciphertext);
        let mut run = DriftRun { circuit, key, secret, wires: vec![0; words(circuit.wires())], drifts: vec![0; circuit.wires()], worst: Vec::new() };
        // The gate behind the last one does nothing: the library's own checks of the keys, before anything is computed.
        run.library(circuit.gates())?;
        if ins.len() != words(circuit.inputs()) || plain.len() != circuit.inputs() {
            return Err(Refusal::Length);
        }
        run.wires.iter_mut().zip(ins).for_each(|(word, lent)| *word = *lent);
        for ((drift, one), bit) in run.drifts.iter_mut().zip(ins.chunks_exact(key.lengths().ciphertext)).zip(plain) {
            *drift = lent::fresh_drift(key.params(), one, *bit, secret.level0)? as u32;
        }
        Ok(run)
    }

    /// The library's call for gate g: the value that it gives.
    fn library(&mut self, g: usize) -> Result<u32, Refusal> {
        let Secrets { level0, level1 } = self.secret;
        let (wires, drifts) = (&mut self.wires, &mut self.drifts);
        Refusal::of_answer(ffi::drift_gate(self.key.params(), self.key.keys(), level0, level1, self.circuit.bytes(), g, wires, drifts))
    }

    /// How far the run is.
    pub fn progress(&self) -> Progress {
        Progress { done: self.worst.len(), total: self.circuit.gates() }
    }

    /// Does the next gate and tells its drift, its worst brought-in drift and how far the run is then; nothing where all gates are done.
    pub fn step(&mut self) -> Result<Option<GateDrift>, Refusal> {
        let gate = self.worst.len();
        if gate >= self.circuit.gates() {
            return Ok(None);
        }
        let worst = self.library(gate)? as i32;
        let rotates = self.circuit.kind(gate).map_or(false, |kind| kind.rotations() > 0);
        let worst = if rotates { Some(worst) } else { None };
        self.worst.push(worst);
        let drift = self.drift(self.circuit.inputs().saturating_add(gate)).ok_or(Refusal::Length)?;
        Ok(Some(GateDrift { progress: self.progress(), gate, drift, worst }))
    }

    /// Does all gates that are left and tells `watch` after each. The run then has its outputs, drifts and margin.
    pub fn finish(mut self, mut watch: impl FnMut(GateDrift)) -> Result<DriftRun<'a>, Refusal> {
        while let Some(gate) = self.step()? {
            watch(gate);
        }
        Ok(self)
    }

    /// Wires that are known: the inputs and the gates that are done.
    fn known(&self) -> usize {
        self.circuit.inputs().saturating_add(self.worst.len())
    }

    /// The drift of a wire, in 2^-32 of a turn, once it is known: an input's at once, a gate's when it is done.
    pub fn drift(&self, wire: usize) -> Option<i32> {
        self.drifts.get(..self.known())?.get(wire).map(|word| *word as i32)
    }

    /// The report of the drifts that are known, in wire order: the inputs' at once, a gate's when it is done. A circuit has at most 1,280 wires, so this is not
    /// refused.
    pub fn report(&self) -> Result<DriftReport, Refusal> {
        DriftReport::of_words(self.drifts.get(..self.known()).unwrap_or_default())
    }

    /// The worst brought-in drift of a gate, from 0, that is done and rotates.
    pub fn worst(&self, gate: usize) -> Option<i32> {
        self.worst.get(gate).copied().flatten()
    }

    /// The margin of the rotations done so far: by how many bits the largest of their brought-in drifts stays below 2^29 (see [`margin`]), negative where one
    /// is outside. Nothing where nothing was rotated.
    pub fn margin(&self) -> Option<i32> {
        self.worst.iter().flatten().map(|drift| margin(*drift)).min()
    }

    /// Whether all are inside: the drift brought into every rotation, and every output's drift. False as soon as a rotation or an output is outside, true when
    /// all gates are done; nothing until then. Where it is true each output decrypts to the plain run's bit.
    pub fn inside(&self) -> Option<bool> {
        let mut drifts = self.worst.iter().flatten().copied().chain(self.circuit.outputs().iter().filter_map(|wire| self.drift(*wire)));
        if drifts.any(|drift| !inside(drift)) {
            return Some(false);
        }
        if self.worst.len() < self.circuit.gates() {
            None
        } else {
            Some(true)
        }
    }

    /// The ciphertext of a wire, n + 1 words, once it is known.
    pub fn wire(&self, wire: usize) -> Option<&[u32]> {
        if wire >= self.known() {
            return None;
        }
        self.wires.chunks_exact(self.key.lengths().ciphertext).nth(wire)
    }

    /// The outputs' ciphertexts, one after another. Refused with 2 while a gate that an output names is not done.
    pub fn outputs(&self) -> Result<Vec<u32>, Refusal> {
        let mut out = Vec::new();
        for wire in self.circuit.outputs() {
            out.extend_from_slice(self.wire(*wire).ok_or(Refusal::Length)?);
        }
        Ok(out)
    }
}

impl Iterator for DriftRun<'_> {
    type Item = Result<GateDrift, Refusal>;

    fn next(&mut self) -> Option<Self::Item> {
        self.step().transpose()
    }

    fn size_hint(&self) -> (usize, Option<usize>) {
        // A refused step leaves the run where it is, so there is no upper bound.
        (self.circuit.gates().saturating_sub(self.worst.len()), None)
    }
}

/// The wires are long: their words stay out of logs.
impl fmt::Debug for DriftRun<'_> {
    fn fmt(&self, f: &mut fmt::Formatter<'_>) -> fmt::Result {
        f.debug_struct("DriftRun").field("progress", &self.progress()).field("margin", &self.margin()).finish_non_exhaustive()
    }
}
