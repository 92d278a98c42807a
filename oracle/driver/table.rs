//! An independent model of document 01's table of refusals: which number a call must give.

use crate::case::{Arg, Slot};
use crate::circuits;
use crate::sizes::{in_range, Sizes};

pub fn number(p: &[u32; 6], slots: &[Slot], args: &[Arg]) -> u32 {
    answer(p, slots, args) as u32
}

/// The number by the table, of the first check, in its order, that fails; above it the place of a circuit's fault.
pub fn answer(p: &[u32; 6], slots: &[Slot], args: &[Arg]) -> u64 {
    match apart(p, slots, args) {
        0 => of_circuit(p, slots, args),
        number => number as u64,
    }
}

/// The circuit's fault, or 2 for a length that depends on the circuit: those come last.
fn of_circuit(p: &[u32; 6], slots: &[Slot], args: &[Arg]) -> u64 {
    let Some(at) = slots.iter().position(|s| matches!(s, Slot::Circuit)) else { return 0 };
    let circuit = match circuits::read(args[at].b()) {
        Ok(c) => c,
        Err((number, place)) => return number | (place as u64) << 32,
    };
    let words = p[0] as usize + 1;
    let fits = |(slot, arg): (&Slot, &Arg)| match slot {
        Slot::Ciphers(count) | Slot::CiphersOut(count) => arg.len() == count(&circuit) * words,
        Slot::BytesOf(count) | Slot::WordsOut(count) => arg.len() == count(&circuit),
        _ => true,
    };
    if slots.iter().zip(args).all(fits) { 0 } else { 2 }
}

/// Whether a ring of so many coefficients has room for a table of this modulus: one that messages may have, and twice it divides N.
pub fn carries(ring: usize, modulus: u64) -> bool {
    [2, 4, 8, 16, 32, 64].contains(&modulus) && ring as u64 % (2 * modulus) == 0
}

/// The number of the first check that does not look at a circuit.
fn apart(p: &[u32; 6], slots: &[Slot], args: &[Arg]) -> u32 {
    if !in_range(p) {
        return 1;
    }
    let s = Sizes::of(p);
    let pairs = slots.iter().position(|s| matches!(s, Slot::Pairs)).map_or(0, |at| args[at].num());
    // whatever the modulus is, legal or not, the table has that many words
    let modulus = slots.iter().position(|s| matches!(s, Slot::TableModulus)).map_or(0, |at| args[at].num());
    let mut found = 0;
    let mut note = |number: u32| {
        if found == 0 || number < found {
            found = number;
        }
    };
    for (slot, arg) in slots.iter().zip(args) {
        match (slot, arg) {
            (Slot::In(_, len) | Slot::Out(_, len) | Slot::Key(len), a) if a.len() != len(&s) => note(2),
            (Slot::Key(_), Arg::Words(w)) if w.iter().any(|&x| x > 1) => note(4),
            (Slot::Index(_, most), Arg::Num(x)) if *x > most(&s) as u64 => note(3),
            (Slot::Digit(most), Arg::Num(x)) if *x == 0 || *x > most(&s) as u64 => note(3),
            (Slot::Modulus, Arg::Num(m)) if ![2, 4, 8, 16, 32, 64].contains(m) => note(5),
            (Slot::Table, a) if a.len() as u64 != modulus => note(2),
            (Slot::TableModulus, Arg::Num(m)) if !carries(s.ring, *m) => note(5),
            // no count of 64 bits makes a whole number of 128 wrap
            (Slot::EachPair(words) | Slot::EachPairOut(words), a) if a.len() as u128 != pairs as u128 * words(&s) as u128 => note(2),
            (Slot::PairKind, Arg::Num(kind)) if !(3..=12).contains(kind) => note(9),
            _ => {}
        }
    }
    found
}
