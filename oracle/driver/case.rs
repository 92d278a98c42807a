//! A case: a routine of the library, what stands at the place of each argument, and the arguments that it is lent.

use crate::circuits::Circuit;
use crate::sizes::Sizes;
use oracle_api::Original;

pub struct Set {
    pub name: &'static str,
    pub p: [u32; 6],
    pub original: Option<&'static dyn Original>,
    /// The groups that run at it; all of them where none is named.
    pub groups: &'static [&'static str],
}

#[derive(Clone)]
pub enum Arg {
    Num(u64),
    Turn(f64),
    Words(Vec<u32>),
    Bytes(Vec<u8>),
    Longs(Vec<u64>),
    Doubles(Vec<f64>),
}

#[derive(Clone, Copy)]
pub enum Kind {
    Words,
    Bytes,
    Longs,
    Doubles,
}

pub type Size = fn(&Sizes) -> usize;
pub type Count = fn(&Circuit) -> usize;

/// What stands at an argument's place.
pub enum Slot {
    In(Kind, Size),
    Out(Kind, Size),
    /// A secret key: words 0 or 1.
    Key(Size),
    /// An amount or index of so many bits, and the largest that is allowed.
    Index(u32, Size),
    /// The last index of a row of the switching key, from 1 to the largest that is allowed.
    Digit(Size),
    /// Any number of so many bits.
    Number(u32),
    Turn,
    Modulus,
    /// A modulus of messages whose double has to divide N, and the table of so many words.
    TableModulus,
    Table,
    /// A circuit's bytes.
    Circuit,
    /// Ciphertexts at level 0, as many as the circuit tells.
    Ciphers(Count),
    CiphersOut(Count),
    /// So many bytes, or words to be written, as the circuit tells.
    BytesOf(Count),
    WordsOut(Count),
    /// A gate's index in the circuit; one that no gate has is allowed.
    Gate,
    /// The kind of a column's gates, one of two operands.
    PairKind,
    /// How many pairs the column has, and slices of so many words for each of them.
    Pairs,
    EachPair(Size),
    EachPairOut(Size),
    /// Not passed: the number that stands in the answer's high half. Beside a refusal it is the place, which circuits' refusals alone have.
    Value,
}

pub struct Routine {
    pub name: &'static str,
    pub slots: &'static [Slot],
    /// Elementary steps of one call, for choosing how many cases to run.
    pub cost: Size,
    pub call: fn(&[u32; 6], &mut [Arg]) -> u64,
    /// Puts the expected contents into the arguments; false where no reference is at hand.
    pub reference: fn(&Set, &mut [Arg]) -> bool,
}

impl Arg {
    pub fn len(&self) -> usize {
        match self {
            Arg::Words(v) => v.len(),
            Arg::Bytes(v) => v.len(),
            Arg::Longs(v) => v.len(),
            Arg::Doubles(v) => v.len(),
            Arg::Num(_) | Arg::Turn(_) => 1,
        }
    }

    /// The first place where the two differ.
    pub fn differs(&self, other: &Arg) -> Option<usize> {
        fn first<T: PartialEq>(a: &[T], b: &[T]) -> Option<usize> {
            if a == b { None } else { a.iter().zip(b).position(|(x, y)| x != y).or(Some(a.len().min(b.len()))) }
        }
        match (self, other) {
            (Arg::Num(a), Arg::Num(b)) if a != b => Some(0),
            (Arg::Words(a), Arg::Words(b)) => first(a, b),
            (Arg::Bytes(a), Arg::Bytes(b)) => first(a, b),
            (Arg::Longs(a), Arg::Longs(b)) => first(a, b),
            (Arg::Doubles(a), Arg::Doubles(b)) => {
                if a.iter().map(|d| d.to_bits()).eq(b.iter().map(|d| d.to_bits())) { None } else { Some(0) }
            }
            _ => None,
        }
    }

    pub fn text(&self) -> String {
        let join = |v: Vec<String>| v.join(" ");
        match self {
            Arg::Num(x) => format!("{x:x}"),
            Arg::Turn(d) => format!("{:016x}", d.to_bits()),
            Arg::Words(v) => join(v.iter().map(|x| format!("{x:x}")).collect()),
            Arg::Bytes(v) => join(v.iter().map(|x| format!("{x:x}")).collect()),
            Arg::Longs(v) => join(v.iter().map(|x| format!("{x:x}")).collect()),
            Arg::Doubles(v) => join(v.iter().map(|x| format!("{:016x}", x.to_bits())).collect()),
        }
    }

    /// A slice's bytes.
    pub fn raw(&mut self) -> &mut [u8] {
        fn bytes<T>(v: &mut [T]) -> &mut [u8] {
            // SAFETY: numbers have no bytes but their own, and every byte may hold anything.
            unsafe { std::slice::from_raw_parts_mut(v.as_mut_ptr().cast(), std::mem::size_of_val(v)) }
        }
        match self {
            Arg::Words(v) => bytes(v),
            Arg::Bytes(v) => v,
            Arg::Longs(v) => bytes(v),
            Arg::Doubles(v) => bytes(v),
            Arg::Num(_) | Arg::Turn(_) => panic!("not a slice"),
        }
    }

    pub fn w(&self) -> &[u32] {
        match self {
            Arg::Words(v) => v,
            _ => panic!("not words"),
        }
    }
    pub fn b(&self) -> &[u8] {
        match self {
            Arg::Bytes(v) => v,
            _ => panic!("not bytes"),
        }
    }
    pub fn num(&self) -> u64 {
        match self {
            Arg::Num(x) => *x,
            _ => panic!("not a number"),
        }
    }
}
