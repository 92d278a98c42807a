//! Writes a circuit's bytes.

use crate::{Circuit, Kind, Refusal};

/// A wire of the circuit that is being built: an input, or a gate's result.
#[derive(Debug, Clone, Copy, PartialEq, Eq, Hash)]
pub struct Wire(u16);

/// No circuit has so many wires, so the check refuses a circuit that names this one.
const NOWHERE: u16 = u16::MAX;

/// Builds a circuit gate by gate.
///
/// The builder judges nothing. What it is given is written down, a mistake in a form that no circuit has (a wire that cannot be, a byte that has to
/// be zero), and [`Builder::build`] lets the library's proved check decide. So there is one place where circuits are refused, and its place in
/// the bytes tells which gate or output is at fault.
///
/// ```no_run
/// use egl::{Builder, Kind};
///
/// let mut builder = Builder::new(2);
/// let (a, b) = (builder.input(0), builder.input(1));
/// let both = builder.gate(Kind::And, &[a, b]);
/// builder.output(both);
/// let circuit = builder.build()?;
/// assert_eq!(circuit.run_plain(&[true, true])?, [true]);
/// # Ok::<(), egl::Refusal>(())
/// ```
#[derive(Debug, Clone, Default)]
pub struct Builder {
    inputs: usize,
    gates: Vec<[u8; 8]>,
    outputs: Vec<Wire>,
}

impl Builder {
    /// A circuit with so many inputs (at most 256) and no gate yet.
    pub fn new(inputs: usize) -> Builder {
        Builder { inputs, ..Builder::default() }
    }

    /// The wire of input `index`, from 0. Past the last input it is a wire that no circuit has, and the build is refused if it is used.
    pub fn input(&self, index: usize) -> Wire {
        Wire(if index < self.inputs { field(index) } else { NOWHERE })
    }

    /// Adds a gate and gives its wire. The operands are as many as [`Kind::operands`] says, each an input or the wire of an earlier gate; else the
    /// build is refused with 9.
    pub fn gate(&mut self, kind: Kind, operands: &[Wire]) -> Wire {
        let wire = Wire(field(self.inputs.saturating_add(self.gates.len())));
        let operand = |place: usize| match operands.get(place) {
            Some(wire) if place < kind.operands() => wire.0.to_le_bytes(),
            None if place >= kind.operands() => [0, 0],
            // One operand too many, or one that is missing.
            _ => NOWHERE.to_le_bytes(),
        };
        let ([a, aa], [b, bb], [c, cc]) = (operand(0), operand(1), operand(2));
        // The byte after the kind has to be zero; a fourth operand has no place of its own and shows there.
        self.gates.push([kind.number(), u8::from(operands.len() > 3), a, aa, b, bb, c, cc]);
        wire
    }

    /// Makes a wire the next output. A circuit has 1 to 64 of them.
    pub fn output(&mut self, wire: Wire) {
        self.outputs.push(wire);
    }

    /// The bytes as they stand, checked by nobody.
    pub fn bytes(&self) -> Vec<u8> {
        let mut bytes = b"EGL".to_vec();
        for count in [1, self.inputs, self.gates.len(), self.outputs.len()] {
            bytes.extend(field(count).to_le_bytes());
        }
        self.gates.iter().for_each(|gate| bytes.extend(gate));
        self.outputs.iter().for_each(|wire| bytes.extend(wire.0.to_le_bytes()));
        bytes
    }

    /// The circuit, checked by the library. Refusals: 8, 9, 10.
    pub fn build(self) -> Result<Circuit, Refusal> {
        Circuit::from_bytes(self.bytes())
    }
}

/// A number as a 16-bit field; one that does not fit becomes the largest, which no circuit may have there.
fn field(number: usize) -> u16 {
    u16::try_from(number).unwrap_or(u16::MAX)
}
