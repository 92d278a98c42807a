//! The gates that the library offers one by one, with their meaning.

use std::fmt;

/// A gate on ciphertexts. The names are the original's, so [`Gate::Xnor`] computes xor; a circuit's [`Kind::Xnor`](crate::Kind::Xnor) has its
/// Boolean meaning.
#[derive(Debug, Clone, Copy, PartialEq, Eq, Hash)]
pub enum Gate {
    /// not (a and b)
    Nand,
    /// a or b
    Or,
    /// a and b
    And,
    /// not (a or b)
    Nor,
    /// (not a) and b
    AndNy,
    /// a and (not b)
    AndYn,
    /// (not a) or b
    OrNy,
    /// a or (not b)
    OrYn,
    /// a xor b
    Xor,
    /// a xor b: the original's gate of this name computes xor, and so does the library's
    Xnor,
    /// b where a is true, else c; two rotations
    Mux,
    /// b where a is true, else c; made of three gates
    MuxNaive,
    /// not a; no rotation
    Not,
    /// a itself
    Copy,
    /// a bit that every key decrypts
    Constant(bool),
}

impl Gate {
    /// Every gate, each constant counted as one.
    pub const ALL: [Gate; 16] = [
        Gate::Nand,
        Gate::Or,
        Gate::And,
        Gate::Nor,
        Gate::AndNy,
        Gate::AndYn,
        Gate::OrNy,
        Gate::OrYn,
        Gate::Xor,
        Gate::Xnor,
        Gate::Mux,
        Gate::MuxNaive,
        Gate::Not,
        Gate::Copy,
        Gate::Constant(false),
        Gate::Constant(true),
    ];

    /// How many ciphertexts it takes: 0 to 3.
    pub fn operands(self) -> usize {
        match self {
            Gate::Constant(_) => 0,
            Gate::Not | Gate::Copy => 1,
            Gate::Mux | Gate::MuxNaive => 3,
            _ => 2,
        }
    }

    /// How many blind rotations it costs. Nearly all the time goes there.
    pub fn rotations(self) -> usize {
        match self {
            Gate::Constant(_) | Gate::Not | Gate::Copy => 0,
            Gate::Mux => 2,
            Gate::MuxNaive => 3,
            _ => 1,
        }
    }

    /// The bit that it computes. Operands that it does not take are not looked at.
    pub fn meaning(self, a: bool, b: bool, c: bool) -> bool {
        match self {
            Gate::Nand => !(a && b),
            Gate::Or => a || b,
            Gate::And => a && b,
            Gate::Nor => !(a || b),
            Gate::AndNy => !a && b,
            Gate::AndYn => a && !b,
            Gate::OrNy => !a || b,
            Gate::OrYn => a || !b,
            Gate::Xor | Gate::Xnor => a != b,
            Gate::Mux | Gate::MuxNaive => {
                if a {
                    b
                } else {
                    c
                }
            }
            Gate::Not => !a,
            Gate::Copy => a,
            Gate::Constant(bit) => bit,
        }
    }

    /// Its truth table: the operands (a first; those that it does not take are false) and the bit, a running fastest.
    pub fn truth_table(self) -> impl Iterator<Item = ([bool; 3], bool)> {
        let rows = 1u32.checked_shl(self.operands() as u32).unwrap_or(0);
        (0..rows).map(move |row| {
            let [a, b, c] = [row & 1 != 0, row & 2 != 0, row & 4 != 0];
            ([a, b, c], self.meaning(a, b, c))
        })
    }

    /// The name, as in the library's functions.
    pub fn name(self) -> &'static str {
        match self {
            Gate::Nand => "nand",
            Gate::Or => "or",
            Gate::And => "and",
            Gate::Nor => "nor",
            Gate::AndNy => "and_ny",
            Gate::AndYn => "and_yn",
            Gate::OrNy => "or_ny",
            Gate::OrYn => "or_yn",
            Gate::Xor => "xor",
            Gate::Xnor => "xnor",
            Gate::Mux => "mux",
            Gate::MuxNaive => "mux_naive",
            Gate::Not => "not",
            Gate::Copy => "copy",
            Gate::Constant(false) => "false",
            Gate::Constant(true) => "true",
        }
    }
}

impl fmt::Display for Gate {
    fn fmt(&self, f: &mut fmt::Formatter<'_>) -> fmt::Result {
        f.pad(self.name())
    }
}
