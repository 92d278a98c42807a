//! What the four functions of tables may not be lent: each slice one word off, empty and doubled; moduli that no message has or N has no room for, with the table that they ask for and
//! with others; all faults together, so that their order shows. A refused call leaves every slice as it was.

use crate::case::{Arg, Routine, Set, Slot};
use crate::compare::Tally;
use crate::draw::{good, MODULI, OTHER_MODULI};
use crate::source::Source;
use crate::table;
use super::tables::ROUTINES;

/// N 2 has room for no table, 4 for one modulus, and so on; through the bridge some of them.
const RINGS: &[u32] = if cfg!(bridge) { &[1, 3] } else { &[1, 2, 3, 4] };

pub fn run(tally: &mut Tally, source: &mut Source, set: &Set) {
    for nbit in RINGS.iter().copied() {
        // the set's digits beside a small n and N: a refusal looks at no word but those of secret keys
        let [_, _, bgbit, l, basebit, t] = set.p;
        let at = Set { name: set.name, p: [1 + source.below(3) as u32, nbit, bgbit, l, basebit, t], original: None, groups: &[] };
        for r in &ROUTINES {
            one_off(tally, source, &at, r);
            if matches!(r.slots[0], Slot::TableModulus) {
                moduli(tally, source, &at, r);
            }
            together(tally, source, &at, r);
        }
        judged_by(tally, source, &at);
    }
}

fn words(arg: &mut Arg) -> Option<&mut Vec<u32>> {
    match arg {
        Arg::Words(words) => Some(words),
        _ => None,
    }
}

/// A call that has to give this number.
fn answered(tally: &mut Tally, set: &Set, r: &Routine, args: Vec<Arg>, number: u32) {
    let told = table::number(&set.p, r.slots, &args);
    assert!(told == number, "{} at {:?}: the table gives {told}, wanted {number}", r.name, set.p);
    tally.check(r, set, &set.p, args);
}

/// Each slice alone of another length, beside a modulus that is right and beside one that is not.
fn one_off(tally: &mut Tally, source: &mut Source, set: &Set, r: &Routine) {
    for at in 0..r.slots.len() {
        let args = good(source, r, &set.p);
        let Arg::Words(slice) = &args[at] else { continue };
        let len = slice.len();
        for to in [len + 1, len - 1, 0, 2 * len] {
            let mut args = args.clone();
            words(&mut args[at]).expect("a slice").resize(to, 1);
            answered(tally, set, r, args.clone(), 2);
            if let (Slot::TableModulus, Arg::Num(modulus), Arg::Words(table)) = (&r.slots[0], args[0].clone(), &args[1]) {
                // 2 before 5: the table's length is the modulus, but that one slice has another
                if table.len() as u64 == modulus {
                    args[1] = Arg::Words(vec![1; 3]);
                    args[0] = Arg::Num(3);
                } else {
                    args[0] = Arg::Num(source.of(&[1 << 63, u64::MAX, (1 << 32) + 4, (1 << 32) + to as u64]));
                }
                answered(tally, set, r, args, 2);
            }
        }
    }
}

/// Each modulus with the table that it asks for, and with tables of other lengths.
fn moduli(tally: &mut Tally, source: &mut Source, set: &Set, r: &Routine) {
    for modulus in MODULI.into_iter().chain(OTHER_MODULI) {
        let low = modulus as u32 as u64;
        for len in [modulus, modulus.wrapping_add(1), modulus.wrapping_sub(1), 0, 1, 2, 4, 64, low, 1 << set.p[1]].into_iter().filter(|len| *len <= 1 << 16) {
            let mut args = good(source, r, &set.p);
            args[0] = Arg::Num(modulus);
            args[1] = Arg::Words((0..len).map(|_| source.next() as u32).collect());
            let number = match (len == modulus, table::carries(1 << set.p[1], modulus)) {
                (false, _) => 2,
                (true, false) => 5,
                (true, true) => 0,
            };
            answered(tally, set, r, args, number);
        }
    }
}

/// Each choice of these faults: a parameter, one slice's length, a word of either secret key, the table's modulus, the results' modulus.
fn together(tally: &mut Tally, source: &mut Source, set: &Set, r: &Routine) {
    for faults in 1..64u32 {
        let fault = |i: u32| faults >> i & 1 == 1;
        let (mut p, mut args) = (set.p, good(source, r, &set.p));
        if fault(0) {
            let at = source.below(6) as usize;
            p[at] = source.of(&[0, u32::MAX, [1101, 11, 25, 33, 7, 31][at]]);
        }
        if fault(4) && matches!(r.slots[0], Slot::TableModulus) {
            let modulus = source.of(&[0, 1, 3, 6, 63, 128, 1 << set.p[1], 1 << 10]);
            args[0] = Arg::Num(modulus);
            args[1] = Arg::Words((0..modulus).map(|_| source.next() as u32).collect());
        }
        let (mut keys, mut slices) = (Vec::new(), Vec::new());
        for (at, slot) in r.slots.iter().enumerate() {
            match (slot, &mut args[at]) {
                (Slot::Modulus, Arg::Num(modulus)) if fault(5) => *modulus = source.of(&OTHER_MODULI),
                (Slot::Key(_), _) => keys.push(at),
                _ => {}
            }
            if words(&mut args[at]).is_some() {
                slices.push(at);
            }
        }
        for at in keys.iter().enumerate().filter(|(i, _)| fault(2 + *i as u32)).map(|(_, at)| *at) {
            let key = words(&mut args[at]).expect("a key");
            let place = source.below(key.len() as u64) as usize;
            key[place] = source.of(&[2, 3, u32::MAX, 1 << 31, (1 << 16) + 1]);
        }
        if fault(1) {
            let at = source.of(&slices);
            let slice = words(&mut args[at]).expect("a slice");
            let len = slice.len();
            slice.resize(source.of(&[len + 1, len.saturating_sub(1)]), 1);
        }
        tally.check(r, set, &p, args);
    }
}

/// The results' modulus alone: every one that messages may have is taken, whether N has room for it or not, and no other.
fn judged_by(tally: &mut Tally, source: &mut Source, set: &Set) {
    let r = &ROUTINES[3];
    for results in MODULI.into_iter().chain(OTHER_MODULI) {
        let mut args = good(source, r, &set.p);
        args[2] = Arg::Num(results);
        let number = if MODULI.contains(&results) && table::carries(1 << set.p[1], args[0].num()) { 0 } else { 5 };
        answered(tally, set, r, args, number);
    }
}
