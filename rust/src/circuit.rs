//! Circuits as bytes that the library has checked.

use crate::{ffi, Kind, Refusal};

/// A circuit: bytes that the library's proved check has accepted.
///
/// Form: `EGL`, then 16-bit fields with the low byte first: version 1, inputs (0 to 256), gates (0 to 1,024), outputs (1 to 64); 8 bytes a gate
/// (kind, a zero byte, three operands); the output wires. Inputs are the first wires, and gate g gives wire inputs + g.
#[derive(Debug, Clone, PartialEq, Eq, Hash)]
pub struct Circuit {
    bytes: Vec<u8>,
    inputs: usize,
    gates: usize,
    outputs: Vec<usize>,
}

/// Where the gates start.
const HEAD: usize = 11;

impl Circuit {
    /// Takes bytes. Refusals 6 to 10 with the place of the field at fault.
    pub fn from_bytes(bytes: impl Into<Vec<u8>>) -> Result<Circuit, Refusal> {
        let bytes = bytes.into();
        Circuit::check(&bytes)?;
        // The check accepts no circuit under 11 bytes, or shorter than its counts say, so each field is there.
        let field = |at: usize| two_bytes(&bytes, at).ok_or(Refusal::CircuitLength { place: 0 });
        let (inputs, gates, outputs) = (field(5)?, field(7)?, field(9)?);
        let first = gates.saturating_mul(8).saturating_add(HEAD);
        let outputs = (0..outputs).map(|o| field(first.saturating_add(o.saturating_mul(2)))).collect::<Result<_, _>>()?;
        Ok(Circuit { bytes, inputs, gates, outputs })
    }

    /// Whether bytes are a circuit. Refusals 6 to 10 with the place of the field at fault.
    pub fn check(bytes: &[u8]) -> Result<(), Refusal> {
        Refusal::of_answer(ffi::circuit_check(bytes)).map(|_| ())
    }

    /// The bytes.
    pub fn bytes(&self) -> &[u8] {
        &self.bytes
    }

    /// How many inputs it has.
    pub fn inputs(&self) -> usize {
        self.inputs
    }

    /// How many gates it has.
    pub fn gates(&self) -> usize {
        self.gates
    }

    /// How many wires it has: its inputs and its gates.
    pub fn wires(&self) -> usize {
        self.inputs.saturating_add(self.gates)
    }

    /// The wires that are its outputs, in order.
    pub fn outputs(&self) -> &[usize] {
        &self.outputs
    }

    /// The kind of gate g, from 0; none past the last gate.
    pub fn kind(&self, g: usize) -> Option<Kind> {
        if g >= self.gates {
            return None;
        }
        self.bytes.get(g.saturating_mul(8).saturating_add(HEAD)).and_then(|number| Kind::from_number(*number))
    }

    /// The work: the number of blind rotations of its encrypted run, one for each two-input gate and two for a mux. At the 128-bit set runs were
    /// measured to take the work times the time of a two-input gate. Up to version 3 of the interface a mux counted one ([`archive_version`](crate::archive_version)).
    pub fn work(&self) -> Result<u32, Refusal> {
        Circuit::work_of(&self.bytes)
    }

    /// The work of its first gates, so many (of all, where it has no more): how much of [`work`](Circuit::work) is done when a run tells that these are. Whoever shows how long a
    /// run has still to go counts so, and not by gates.
    pub fn work_to(&self, gates: usize) -> u32 {
        (0..gates.min(self.gates)).filter_map(|g| self.kind(g)).fold(0, |sum, kind| sum.saturating_add(kind.rotations() as u32))
    }

    /// The work of bytes that may be a circuit. Refusals 6 to 10 with the place of the field at fault.
    pub fn work_of(bytes: &[u8]) -> Result<u32, Refusal> {
        Refusal::of_answer(ffi::circuit_work(bytes))
    }

    /// Runs it on plain bits, one for each input, and gives a bit for each output. Refused with 2 for another number of bits.
    pub fn run_plain(&self, ins: &[bool]) -> Result<Vec<bool>, Refusal> {
        let ins: Vec<u8> = ins.iter().map(|bit| u8::from(*bit)).collect();
        let mut out = vec![0; self.outputs.len()];
        Refusal::of_answer(ffi::circuit_run_plain(&self.bytes, &ins, &mut out))?;
        Ok(out.iter().map(|byte| *byte != 0).collect())
    }
}

/// The 16-bit field at a place.
fn two_bytes(bytes: &[u8], at: usize) -> Option<usize> {
    match bytes.get(at..)? {
        [low, high, ..] => Some(usize::from(u16::from_le_bytes([*low, *high]))),
        _ => None,
    }
}
