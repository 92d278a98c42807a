//! Arguments for a case, drawn from a seeded source: good ones, and some with faults.

use crate::case::{Arg, Kind, Routine, Slot};
use crate::circuits::{self, Circuit};
use crate::sizes::{in_range, Sizes};
use crate::source::Source;
use crate::table::carries;

/// The lengths of columns.
pub const PAIRS: [usize; 4] = [0, 1, 2, 7];

/// Kinds that no column runs; the low bits of the last few are those of one that does.
pub const OTHER_KINDS: [u64; 9] = [0, 1, 2, 13, 14, 255, 256 + 3, (1 << 32) + 3, u64::MAX];

/// The moduli that messages may have.
pub const MODULI: [u64; 6] = [2, 4, 8, 16, 32, 64];

/// Others: about those, between them, and large ones; two of these have the low bits of one that messages may have.
pub const OTHER_MODULI: [u64; 18] =
    [0, 1, 3, 5, 6, 12, 24, 48, 63, 65, 96, 128, 1 << 16, 1 << 31, (1 << 32) + 2, (1 << 32) + 4, 1 << 63, u64::MAX];

fn filled(source: &mut Source, kind: Kind, len: usize) -> Arg {
    match kind {
        Kind::Words => Arg::Words(source.words(len)),
        Kind::Bytes => Arg::Bytes(source.bytes(len)),
        Kind::Longs => Arg::Longs((0..len).map(|_| source.next()).collect()),
        Kind::Doubles => Arg::Doubles((0..len).map(|_| source.double()).collect()),
    }
}

/// Arguments that the routine must accept; slices to be written hold words to be overwritten.
pub fn good(source: &mut Source, r: &Routine, p: &[u32; 6]) -> Vec<Arg> {
    let s = Sizes::of(p);
    let mut out = Vec::new();
    // the circuit that later arguments go by
    let mut circuit = Circuit { inputs: 0, gates: Vec::new(), outputs: Vec::new() };
    // and the column's pairs
    let mut pairs = 0;
    // and the table's modulus
    let mut modulus = 0;
    for slot in r.slots {
        out.push(match slot {
            Slot::In(kind, len) => filled(source, *kind, len(&s)),
            Slot::Out(kind, len) => match kind {
                Kind::Words => Arg::Words((0..len(&s)).map(|_| source.next() as u32).collect()),
                _ => filled(source, *kind, len(&s)),
            },
            Slot::Key(len) => Arg::Words(source.key(len(&s))),
            Slot::Index(_, most) => {
                let most = most(&s) as u64;
                Arg::Num(if source.below(4) == 0 { source.of(&[0, most]) } else { source.below(most + 1) })
            }
            Slot::Digit(most) => {
                let most = most(&s) as u64;
                Arg::Num(if source.below(4) == 0 { source.of(&[1, most]) } else { 1 + source.below(most) })
            }
            Slot::Number(8) => Arg::Num(source.bytes(1)[0] as u64),
            Slot::Number(32) => Arg::Num(source.word() as u64),
            Slot::Number(_) => Arg::Num(if source.below(2) == 0 { source.below(200) } else { source.next() }),
            Slot::Turn => Arg::Turn(source.double()),
            Slot::Modulus => Arg::Num(2 << source.below(6)),
            Slot::TableModulus => {
                // N 2 has room for no table: there the call is refused
                let fit: Vec<u64> = MODULI.into_iter().filter(|m| carries(s.ring, *m)).collect();
                modulus = if fit.is_empty() { source.of(&MODULI) } else { source.of(&fit) };
                Arg::Num(modulus)
            }
            Slot::Table => Arg::Words(source.words(modulus as usize)),
            Slot::Circuit => {
                let bytes = small_circuit(source, circuits::KINDS);
                circuit = circuits::read(&bytes).ok().expect("a valid circuit");
                Arg::Bytes(bytes)
            }
            Slot::Ciphers(count) | Slot::CiphersOut(count) => Arg::Words(source.words(count(&circuit) * (s.n + 1))),
            Slot::BytesOf(count) => Arg::Bytes(source.bytes(count(&circuit))),
            Slot::WordsOut(count) => Arg::Words(source.words(count(&circuit))),
            Slot::Gate => Arg::Num(gate_index(source, circuit.gates.len() as u64)),
            Slot::PairKind => Arg::Num(3 + source.below(10)),
            Slot::Pairs => {
                pairs = source.of(&PAIRS);
                Arg::Num(pairs as u64)
            }
            Slot::EachPair(words) => Arg::Words(source.words(pairs * words(&s))),
            Slot::EachPairOut(words) => Arg::Words((0..pairs * words(&s)).map(|_| source.next() as u32).collect()),
            Slot::Value => Arg::Num(u64::MAX),
        });
    }
    out
}

/// The index of one of so many gates; now and then one that the circuit has not.
fn gate_index(source: &mut Source, gates: u64) -> u64 {
    let beyond = source.of(&[gates, gates + 1, 1 << 32, u64::MAX]);
    if source.below(4) == 0 { beyond } else { source.below(gates + 1) }
}

/// A valid circuit of at most 12 gates, now and then without inputs or without gates.
pub fn small_circuit(source: &mut Source, kinds: u64) -> Vec<u8> {
    let inputs = source.below(6) as usize;
    let gates = if source.below(8) == 0 { 0 } else { 1 + source.below(12) as usize };
    let outputs = 1 + source.below(5) as usize;
    circuits::valid(source, kinds, if gates == 0 { inputs + 1 } else { inputs }, gates, outputs)
}

/// Other counts than the slices' own, which have so many words for a ciphertext: one more, one less, and large ones. Of those the words pass 64 bits, or nearly;
/// among them are all whose product, in words or in bytes, for pairs or for outputs, comes out modulo 2^64 as it was.
pub fn other_counts(words: u64, pairs: u64) -> Vec<u64> {
    let near = [pairs + 1, pairs.wrapping_sub(1), pairs + (1 << 32)];
    let twos = words.trailing_zeros();
    let again = (0..5).map(|less| pairs.wrapping_add(1u64.checked_shl(64 - less - twos).unwrap_or(0)));
    let most = u64::MAX / words;
    let limits = [1 << 63, u64::MAX, most, most + 1, most / 2, most / 2 + 1];
    near.into_iter().chain(again).chain(limits).filter(|count| *count != pairs).collect()
}

/// Another length; for a switching key also the one that it had with idle rows.
fn resized(source: &mut Source, p: &[u32; 6], arg: &mut Arg) {
    let len = arg.len();
    let mut lengths = vec![len + 1, len.saturating_sub(1), 0, 2 * len, len + 2];
    if in_range(p) && len == Sizes::of(p).switching() {
        lengths.push(Sizes::of(p).former_switching());
    }
    let to = source.of(&lengths);
    match arg {
        Arg::Words(v) => v.resize(to, 1),
        Arg::Bytes(v) => v.resize(to, 1),
        Arg::Longs(v) => v.resize(to, 1),
        Arg::Doubles(v) => v.resize(to, 0.5),
        _ => {}
    }
}

fn wrong_parameter(source: &mut Source, p: &mut [u32; 6]) {
    let i = source.below(6) as usize;
    let past = [1101, 11, 25, 32 / p[2].max(1) + 1, 7, 30 / p[4].max(1) + 1][i];
    p[i] = match source.below(6) {
        0 => 0,
        1 => u32::MAX,
        2 => past,
        3 => 1 << 31,
        4 => p[i].wrapping_add(1),
        _ => source.next() as u32,
    };
}

/// Arguments with one to three faults, so that the order of the checks shows.
pub fn faulty(source: &mut Source, r: &Routine) -> ([u32; 6], Vec<Arg>) {
    let mut p = small(source);
    let mut args = good(source, r, &p);
    for _ in 0..1 + source.below(3) {
        let i = source.below(r.slots.len() as u64 + 1) as usize;
        if i == r.slots.len() {
            wrong_parameter(source, &mut p);
            continue;
        }
        match (&r.slots[i], &mut args[i]) {
            (Slot::Key(_), Arg::Words(w)) if !w.is_empty() && source.below(3) > 0 => {
                let at = source.of(&[0, w.len() - 1, w.len() / 2]);
                w[at] = source.of(&[2, 3, u32::MAX, 1 << 31]);
            }
            (Slot::Index(bits, most), Arg::Num(x)) => {
                let most = if in_range(&p) { most(&Sizes::of(&p)) as u64 } else { 4 };
                *x = source.of(&[most + 1, most + 2, 2 * most + 7, u32::MAX as u64, u64::MAX >> (64 - bits)]);
            }
            (Slot::Digit(most), Arg::Num(x)) => {
                let most = if in_range(&p) { most(&Sizes::of(&p)) as u64 } else { 4 };
                // the low bits of the last but one are those of a row
                *x = source.of(&[0, 0, most + 1, 1 << 32, (1 << 32) + 1, u64::MAX]);
            }
            (Slot::Modulus, Arg::Num(m)) => *m = source.of(&[0, 1, 3, 6, 63, 65, 128, 1 << 32, (1 << 32) + 2, 1 << 63, u64::MAX]),
            (Slot::TableModulus, Arg::Num(m)) => {
                *m = if source.below(2) == 0 { source.of(&MODULI) } else { source.of(&OTHER_MODULI) };
                // mostly with the table that it asks for, where a table can be so long
                let (m, table) = (*m, r.slots.iter().position(|s| matches!(s, Slot::Table)));
                if let (Some(Arg::Words(table)), true) = (table.map(|at| &mut args[at]), m <= 1 << 16 && source.below(3) > 0) {
                    table.resize(m as usize, 1);
                }
            }
            (Slot::Circuit, Arg::Bytes(b)) => circuits::damage(source, b),
            (Slot::PairKind, Arg::Num(kind)) => *kind = source.of(&OTHER_KINDS),
            (Slot::Pairs, Arg::Num(pairs)) => *pairs = source.of(&other_counts(p[0] as u64 + 1, *pairs)),
            (Slot::In(..) | Slot::Out(..) | Slot::Key(_) | Slot::Table | Slot::EachPair(_) | Slot::EachPairOut(_), a) => resized(source, &p, a),
            (Slot::Ciphers(_) | Slot::CiphersOut(_) | Slot::BytesOf(_) | Slot::WordsOut(_), a) => resized(source, &p, a),
            _ => {}
        }
    }
    (p, args)
}

/// Small parameters in range, for refusals: slices stay short.
fn small(source: &mut Source) -> [u32; 6] {
    let bgbit = 1 + source.below(24) as u32;
    let basebit = 1 + source.below(3) as u32;
    let l = 1 + source.below((32 / bgbit).min(4) as u64) as u32;
    let t = 1 + source.below((30 / basebit).min(4) as u64) as u32;
    [1 + source.below(6) as u32, 1 + source.below(3) as u32, bgbit, l, basebit, t]
}
