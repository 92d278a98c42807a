//! The numbered refusals of the proved library.

use std::error::Error;
use std::fmt;

/// Why a call did not do its work. Checks go in the order of the numbers (but that a circuit under 11 bytes gets 8 first, and lengths that depend
/// on a circuit or a text come after it), and a refused call has written to nothing that was lent to it.
#[derive(Debug, Clone, Copy, PartialEq, Eq, Hash)]
#[non_exhaustive]
pub enum Refusal {
    /// 1: a parameter is outside its range.
    Parameter,
    /// 2: a lent slice has not exactly its stated length.
    Length,
    /// 3: a rotation amount above 2N, an extraction index of N or more, or a key row's index outside its range.
    Index,
    /// 4: a word of a secret key is neither 0 nor 1.
    SecretKeyWord,
    /// 5: a message's modulus is not 2, 4, 8, 16, 32 or 64, or twice a table's modulus does not divide N.
    Modulus,
    /// 6: a circuit's mark is wrong.
    CircuitMark {
        /// The first byte of the field at fault.
        place: u32,
    },
    /// 7: a circuit's version is not 1.
    CircuitVersion {
        /// The first byte of the field at fault.
        place: u32,
    },
    /// 8: a circuit's length or one of its counts.
    CircuitLength {
        /// The first byte of the field at fault.
        place: u32,
    },
    /// 9: a gate of a circuit, or a column's kind that is not 3 to 12.
    CircuitGate {
        /// The first byte of the field at fault; 0, where no gate stands, for a column's kind.
        place: u32,
    },
    /// 10: an output of a circuit.
    CircuitOutput {
        /// The first byte of the field at fault.
        place: u32,
    },
    /// 11: a text is not in the Bristol Fashion form.
    TextForm {
        /// The first byte of the token at fault, or the text's length where it ends too early; `u32::MAX` stands for every place from there on.
        place: u32,
    },
    /// 12: a text is in the form, but has a MAND, or its circuit breaks a limit.
    TextLimit {
        /// The first byte of the token that shows it; `u32::MAX` stands for every place from there on.
        place: u32,
    },
    /// 13: a drift report would be of more than 65,535 wires.
    ReportWires,
    /// A number that this wrapper does not know: the archive is newer than the wrapper.
    Unknown {
        /// The number as the archive gave it.
        number: u32,
        /// The high half of its answer.
        place: u32,
    },
}

impl Refusal {
    /// Takes an answer of the C functions apart: the refusal stands in its low half (0 when the work is done), the place of a refusal, or the
    /// value of a call that gives one, in its high half.
    pub fn of_answer(answer: u64) -> Result<u32, Refusal> {
        let number = (answer & 0xFFFF_FFFF) as u32;
        let place = (answer >> 32) as u32;
        Err(match number {
            0 => return Ok(place),
            1 => Refusal::Parameter,
            2 => Refusal::Length,
            3 => Refusal::Index,
            4 => Refusal::SecretKeyWord,
            5 => Refusal::Modulus,
            6 => Refusal::CircuitMark { place },
            7 => Refusal::CircuitVersion { place },
            8 => Refusal::CircuitLength { place },
            9 => Refusal::CircuitGate { place },
            10 => Refusal::CircuitOutput { place },
            11 => Refusal::TextForm { place },
            12 => Refusal::TextLimit { place },
            13 => Refusal::ReportWires,
            _ => Refusal::Unknown { number, place },
        })
    }

    /// The refusal's number.
    pub fn number(self) -> u32 {
        match self {
            Refusal::Parameter => 1,
            Refusal::Length => 2,
            Refusal::Index => 3,
            Refusal::SecretKeyWord => 4,
            Refusal::Modulus => 5,
            Refusal::CircuitMark { .. } => 6,
            Refusal::CircuitVersion { .. } => 7,
            Refusal::CircuitLength { .. } => 8,
            Refusal::CircuitGate { .. } => 9,
            Refusal::CircuitOutput { .. } => 10,
            Refusal::TextForm { .. } => 11,
            Refusal::TextLimit { .. } => 12,
            Refusal::ReportWires => 13,
            Refusal::Unknown { number, .. } => number,
        }
    }

    /// The place that goes with it: a byte of the circuit for 6 to 10, of the text for 11 and 12, 0 for 1 to 5, for 13 and for a column's kind.
    pub fn place(self) -> u32 {
        match self {
            Refusal::Parameter | Refusal::Length | Refusal::Index | Refusal::SecretKeyWord | Refusal::Modulus | Refusal::ReportWires => 0,
            Refusal::CircuitMark { place }
            | Refusal::CircuitVersion { place }
            | Refusal::CircuitLength { place }
            | Refusal::CircuitGate { place }
            | Refusal::CircuitOutput { place }
            | Refusal::TextForm { place }
            | Refusal::TextLimit { place }
            | Refusal::Unknown { place, .. } => place,
        }
    }
}

impl fmt::Display for Refusal {
    fn fmt(&self, f: &mut fmt::Formatter<'_>) -> fmt::Result {
        match self {
            Refusal::Parameter => f.write_str("refused (1): a parameter is outside its range"),
            Refusal::Length => f.write_str("refused (2): a slice has not exactly its stated length"),
            Refusal::Index => f.write_str("refused (3): a rotation amount, an extraction index or a key row's index is outside its range"),
            Refusal::SecretKeyWord => f.write_str("refused (4): a word of a secret key is neither 0 nor 1"),
            Refusal::Modulus => f.write_str("refused (5): the message modulus is not 2, 4, 8, 16, 32 or 64, or twice a table's modulus does not divide N"),
            Refusal::CircuitMark { place } => write!(f, "refused (6): the circuit does not start with its mark, at byte {place}"),
            Refusal::CircuitVersion { place } => write!(f, "refused (7): the circuit's version is not 1, at byte {place}"),
            Refusal::CircuitLength { place } => write!(f, "refused (8): the circuit's length or one of its counts is wrong, at byte {place}"),
            Refusal::CircuitGate { place: 0 } => f.write_str("refused (9): a column's kind must be 3 to 12, a gate of two inputs"),
            Refusal::CircuitGate { place } => write!(f, "refused (9): a gate of the circuit is wrong, at byte {place}"),
            Refusal::CircuitOutput { place } => write!(f, "refused (10): an output of the circuit is no wire of it, at byte {place}"),
            Refusal::TextForm { place } => write!(f, "refused (11): the text is not in the Bristol Fashion form, at byte {place}"),
            Refusal::TextLimit { place } => write!(f, "refused (12): the text has a MAND, or its circuit breaks a limit, at byte {place}"),
            Refusal::ReportWires => f.write_str("refused (13): a drift report would be of more than 65,535 wires"),
            Refusal::Unknown { number, place } => write!(f, "refused ({number}) at {place}: this wrapper does not know that number"),
        }
    }
}

impl Error for Refusal {}
