//! The kinds of gates in a circuit.

/// What a gate of a circuit computes. The number is the one that stands in the circuit's bytes. A column takes those of two operands, 3 to 12.
#[derive(Debug, Clone, Copy, PartialEq, Eq, Hash)]
#[repr(u8)]
pub enum Kind {
    /// 0: false
    False = 0,
    /// 1: true
    True = 1,
    /// 2: not a
    Not = 2,
    /// 3: a and b
    And = 3,
    /// 4: a or b
    Or = 4,
    /// 5: not (a and b)
    Nand = 5,
    /// 6: not (a or b)
    Nor = 6,
    /// 7: a xor b
    Xor = 7,
    /// 8: not (a xor b), by its Boolean meaning: a run or a column evaluates xor and negates
    Xnor = 8,
    /// 9: (not a) and b
    AndNy = 9,
    /// 10: a and (not b)
    AndYn = 10,
    /// 11: (not a) or b
    OrNy = 11,
    /// 12: a or (not b)
    OrYn = 12,
    /// 13: b where a is true, else c
    Mux = 13,
}

impl Kind {
    /// Every kind, in the order of the numbers.
    pub const ALL: [Kind; 14] = [
        Kind::False,
        Kind::True,
        Kind::Not,
        Kind::And,
        Kind::Or,
        Kind::Nand,
        Kind::Nor,
        Kind::Xor,
        Kind::Xnor,
        Kind::AndNy,
        Kind::AndYn,
        Kind::OrNy,
        Kind::OrYn,
        Kind::Mux,
    ];

    /// The number in the circuit's bytes.
    pub fn number(self) -> u8 {
        self as u8
    }

    /// The kind of a number; none above 13.
    pub fn from_number(number: u8) -> Option<Kind> {
        Kind::ALL.get(usize::from(number)).copied()
    }

    /// How many operands it needs: 0 to 3.
    pub fn operands(self) -> usize {
        match self {
            Kind::False | Kind::True => 0,
            Kind::Not => 1,
            Kind::Mux => 3,
            _ => 2,
        }
    }

    /// How many blind rotations an encrypted run makes for it, which is its work: 0 to 2, two for a mux.
    pub fn rotations(self) -> usize {
        match self {
            Kind::False | Kind::True | Kind::Not => 0,
            Kind::Mux => 2,
            _ => 1,
        }
    }

    /// The bit that it computes. Operands that it does not need are not looked at.
    pub fn meaning(self, a: bool, b: bool, c: bool) -> bool {
        match self {
            Kind::False => false,
            Kind::True => true,
            Kind::Not => !a,
            Kind::And => a && b,
            Kind::Or => a || b,
            Kind::Nand => !(a && b),
            Kind::Nor => !(a || b),
            Kind::Xor => a != b,
            Kind::Xnor => a == b,
            Kind::AndNy => !a && b,
            Kind::AndYn => a && !b,
            Kind::OrNy => !a || b,
            Kind::OrYn => a || !b,
            Kind::Mux => {
                if a {
                    b
                } else {
                    c
                }
            }
        }
    }
}
