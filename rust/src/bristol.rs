//! Circuits as text in the Bristol Fashion form.

use crate::{ffi, Circuit, Refusal};

/// The bytes of the longest circuit.
const CIRCUIT_BYTES: usize = 8_331;
/// The bytes of the longest text that an export writes.
const BRISTOL_BYTES: usize = 71_830;

/// Texts in the Bristol Fashion form, in which circuits are exchanged with other tools.
impl Circuit {
    /// The circuit of a text. XOR, AND, INV and EQ become a gate each, in the text's order; EQW makes none, for its result is the wire that it copies. The inputs
    /// are the text's first wires, the outputs its last, both in order, and the circuit means what the text means. Any blanks and line ends part the tokens.
    ///
    /// Refused with 11 where the text is not in the form; with 12 where it is, but has a MAND, more than 256 inputs, no output or more than 64, or more than
    /// 1,024 gates that are not EQW; with the place of the earliest token that shows it, or the text's length where it ends too early. An 11 anywhere in
    /// the text comes before any 12.
    ///
    /// Bound the length of texts that come from strangers: one of more than 24,576 wires has them looked up in the text, which takes seconds for 0.6 MB and
    /// minutes for 6 MB, and above 393,216 wires the time grows with the square of the length.
    ///
    /// ```no_run
    /// let text = "2 4\n2 1 1\n1 1\n\n2 1 0 1 2 AND\n1 1 2 3 INV\n";
    /// let nand = egl::Circuit::from_bristol(text.as_bytes())?;
    /// assert_eq!(nand.run_plain(&[true, true])?, [false]);
    /// # Ok::<(), egl::Refusal>(())
    /// ```
    pub fn from_bristol(text: &[u8]) -> Result<Circuit, Refusal> {
        let mut bytes = vec![0; CIRCUIT_BYTES];
        let length = Refusal::of_answer(ffi::bristol_import(text, &mut bytes))?;
        bytes.truncate(length as usize);
        Circuit::from_bytes(bytes)
    }

    /// Its text: ASCII, a line for each gate, with lines and spaces as the published circuits have them. A gate becomes one to three of XOR, AND, INV and EQ, and
    /// each output an EQW at the end; the text means what the circuit means. [`Circuit::from_bristol`] takes it back unless it has more than 1,024 gates
    /// that are not EQW, with the same meaning and other gates.
    pub fn to_bristol(&self) -> Result<String, Refusal> {
        let mut text = vec![0; BRISTOL_BYTES];
        let length = Refusal::of_answer(ffi::bristol_export(self.bytes(), &mut text))?;
        Ok(text.iter().take(length as usize).map(|byte| char::from(*byte)).collect())
    }
}
