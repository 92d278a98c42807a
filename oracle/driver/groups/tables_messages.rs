//! Lookups of messages, with honest keys and junk, from next to no noise to too much: every word against the exact steps and the reckoning, and what is promised of a lookup whose
//! drifts are inside their margins. Drifts on the margins themselves and next to them are made.

use crate::case::{Arg, Set};
use crate::compare::Tally;
use crate::draw::MODULI;
use crate::exact;
use crate::exact_words::{self, message_word};
use crate::ffi::tables::*;
use crate::ffi::tlwe::{egl_tlwe_decrypt_bit_lv0, egl_tlwe_decrypt_message_lv0};
use crate::honest::{Keys, Spread};
use crate::lookup_tables::{self as model, margin, Looked};
use crate::reckoning::{centred, word, Reckoner, Whole};
use crate::sizes::Sizes;
use crate::source::Source;

/// Steps of whole-number products for each set's tables: all six moduli once, and then as often as that allows, but so many times at most.
const STEPS: u64 = 400_000_000;
const LOTS: usize = if cfg!(bridge) { 12 } else { 90 };

/// One lookup: the table, the modulus of its results, the message that is told, and its ciphertext.
pub struct Tried {
    pub table: Vec<u32>,
    pub results: u64,
    pub value: u64,
    pub c: Vec<u32>,
}

pub fn run(tally: &mut Tally, source: &mut Source, set: &Set) {
    let mut steps = 0;
    for lot in 0..LOTS {
        let modulus = MODULI[lot % 6];
        let p = beside(source, &set.p, modulus);
        let own = cost(&Sizes::of(&p), modulus);
        if lot >= 6 && steps + own > STEPS {
            continue;
        }
        steps += own;
        let (keys, noise) = keys(source, p, modulus);
        let r = Reckoner::new(p, &keys.key_lv0, &keys.key_lv1, &keys.switching, &keys.bootstrapping);
        let results = if source.below(2) == 0 { modulus } else { source.of(&MODULI) };
        let table = table(source, modulus, results);
        for value in values(source, modulus) {
            let c = ciphertext(source, &keys, value, modulus, noise);
            compare(tally, source, &keys, &r, &Tried { table: table.clone(), results, value, c });
        }
        tally.same(r.exceptions.get() == 0, || format!("accumulators at {p:?}: {} are not the turned test vector plus the drift", r.exceptions.get()));
        tally.remarks("accumulator that is the turned test vector plus its drift", r.accumulators.get() - r.exceptions.get());
        at_the_margins(tally, source, &keys, &r, &table);
    }
}

/// The set's digits and fields with a small n, and N from twice the modulus on: there a brought-in drift is inside where it is 0, above there is more room.
fn beside(source: &mut Source, p: &[u32; 6], modulus: u64) -> [u32; 6] {
    let least = 1 + modulus.trailing_zeros();
    // many digits make a rotation dear
    let (most, n) = if p[3] > 8 { (6, 2) } else { (source.of(&[6, 6, 6, 8]), 4) };
    let nbit = least + source.below(1 + most.max(least) as u64 - least as u64) as u32;
    [1 + source.below(n) as u32, nbit, p[2], p[3], p[4], p[5]]
}

/// Steps of a table's lookups in the reckoning: those of its messages, and two dozen with rows of their own.
fn cost(s: &Sizes, modulus: u64) -> u64 {
    (modulus + 60) * (s.n * (2 * s.l + 3) * s.ring * s.ring) as u64
}

/// One lot in four has key material of junk; the others are honest, from next to no noise to so much that nothing is right. Also the deviation of ciphertexts. A row's noise is
/// multiplied by digits, so at level 1 it goes by their width; margins go by the modulus.
fn keys(source: &mut Source, p: [u32; 6], modulus: u64) -> (Keys, f64) {
    let margin = margin(modulus) as f64;
    let level1 = margin * source.of(&[1e-8, 1e-4, 2e-3, 2e-2]) / (1u32 << p[2]) as f64;
    let level0 = margin * source.of(&[1e-8, 1e-5, 1e-3, 2e-2]);
    let noise = margin * source.of(&[0.0, 1e-3, 0.1, 0.3, 1.0]);
    let mut keys = Keys::spread(source, p, Spread { level0, level1 });
    if source.below(4) == 0 {
        (keys.key_lv0, keys.key_lv1) = (source.key(keys.key_lv0.len()), source.key(keys.key_lv1.len()));
        (keys.switching, keys.bootstrapping) = (source.words(keys.switching.len()), source.words(keys.bootstrapping.len()));
    }
    (keys, noise)
}

/// A table: any words, words of messages that the results may be, in any order or as they are, words of bits, one word alone that is not 0, limits.
pub fn table(source: &mut Source, modulus: u64, results: u64) -> Vec<u32> {
    let (kind, lone) = (source.below(8), source.below(modulus));
    let entry = |source: &mut Source, m: u64| match kind {
        0 => source.next() as u32,
        1..=3 => message_word(source.next(), results),
        4 => message_word(m, results),
        5 => source.of(&[1 << 29, 7 << 29]),
        6 => source.word(),
        _ => if m == lone { source.word() } else { 0 },
    };
    (0..modulus).map(|m| entry(source, m)).collect()
}

/// Every message, some of them told as a number past the modulus, and numbers at limits.
fn values(source: &mut Source, modulus: u64) -> Vec<u64> {
    let mut out: Vec<u64> = (0..modulus).collect();
    for m in &mut out {
        if source.below(4) == 0 {
            // what it is modulo M stays
            *m += modulus * (source.next() >> (7 + source.below(50)));
        }
    }
    out.extend([modulus, modulus + 1, 2 * modulus - 1, u64::MAX, 1 << 32, (1 << 32) + 1, (1 << 63) + modulus - 1]);
    out
}

/// Mostly the message with noise; now and then junk, another message than the one told, or one that lies half a turn off.
fn ciphertext(source: &mut Source, keys: &Keys, value: u64, modulus: u64, noise: f64) -> Vec<u32> {
    let own = message_word(value, modulus);
    let another = message_word(value % modulus + 1 + source.below(modulus - 1), modulus);
    match source.below(16) {
        0 => source.words(keys.p[0] as usize + 1),
        1 => keys.encrypt_word(source, another, noise),
        2 => keys.encrypt_word(source, own.wrapping_add(1 << 31), noise),
        _ => keys.encrypt_word(source, own, noise),
    }
}

/// The words of a key or a ciphertext, as an argument.
fn lent(words: &[u32]) -> Arg {
    Arg::Words(words.to_vec())
}

/// A slice to be written, with other words in it.
fn blank(source: &mut Source, len: usize) -> Arg {
    Arg::Words((0..len).map(|_| source.next() as u32).collect())
}

/// The library's lookup; nothing where it refuses.
pub fn library(source: &mut Source, keys: &Keys, table: &[u32], c: &[u32]) -> Option<Vec<u32>> {
    let mut args = [Arg::Num(table.len() as u64), lent(table), lent(c), lent(&keys.switching), lent(&keys.bootstrapping), blank(source, c.len())];
    (egl_lookup(&keys.p, &mut args) == 0).then(|| args[5].w().to_vec())
}

/// One lookup in every way; gives the model's.
pub fn compare(tally: &mut Tally, source: &mut Source, keys: &Keys, r: &Reckoner, tried: &Tried) -> Looked {
    let p = &keys.p;
    let Tried { table, results, value, c } = tried;
    let want = model::reckoned(r, table, *results, *value, c);
    let told = |what: &str| format!("lookup at {p:?}, modulus {}, results {results}, value {value}: {what}", table.len());

    let out = library(source, keys, table, c).unwrap_or_default();
    tally.same_words(&out, &want.out, || told("other words than the exact steps'"));

    let mut args = vec![Arg::Num(table.len() as u64), lent(table), Arg::Num(*results), Arg::Num(*value)];
    args.extend([&keys.switching, &keys.bootstrapping, &keys.key_lv0, &keys.key_lv1, c].map(|words| lent(words)));
    args.extend([blank(source, c.len()), blank(source, 2)]);
    let answer = egl_lookup_drift(p, &mut args);
    tally.same(answer == (want.inside as u64) << 32, || told(&format!("answer {answer:#x}, inside {}", want.inside)));
    tally.same_words(args[9].w(), &want.out, || told("the drift's lookup gives other words"));
    for (at, (name, drift)) in [("brought-in", want.brought), ("output's", want.drift)].into_iter().enumerate() {
        let got = args[10].w()[at];
        tally.same(got == word(drift), || told(&format!("{name} drift {got:#x}, reckoned {:#x}", word(drift))));
    }
    if source.below(4) == 0 {
        in_parts(tally, source, keys, tried, &want);
    }
    match answer == 1 << 32 {
        true => kept_promise(tally, keys, tried, args[9].w(), args[10].w()[1]),
        false => tally.remark("lookup not told inside"),
    }
    in_the_model(tally, r, tried, &want);
    want
}

/// The table's test vector by a call of its own, lent to the rotation; what that gives is extracted and switched here.
fn in_parts(tally: &mut Tally, source: &mut Source, keys: &Keys, tried: &Tried, want: &Looked) {
    let (p, ring) = (&keys.p, Sizes::of(&keys.p).ring);
    let mut vector = [Arg::Num(tried.table.len() as u64), lent(&tried.table), blank(source, ring), blank(source, ring)];
    let first = egl_table_testvec(p, &mut vector);
    let mut args = [lent(&tried.c), vector[2].clone(), vector[3].clone(), lent(&keys.bootstrapping), blank(source, ring), blank(source, ring)];
    let second = egl_trgsw_blind_rotate_with_testvec(p, &mut args);
    let out = exact::switch(p, &exact::extract(args[4].w(), args[5].w(), 0), &keys.switching);
    tally.same(first == 0 && second == 0, || format!("lookup in parts at {p:?}: answers {first:#x} and {second:#x}"));
    tally.same_words(&out, &want.out, || format!("lookup in parts at {p:?}: other words than the lookup's"));
}

/// A lookup told inside: the phase of what it gives is the message's own table word plus the drift; where that word is a message's of the results' modulus, or a bit's, it
/// decrypts to that.
fn kept_promise(tally: &mut Tally, keys: &Keys, tried: &Tried, out: &[u32], drift: u32) {
    let (p, key) = (&keys.p, &keys.key_lv0);
    let own = tried.table[(tried.value % tried.table.len() as u64) as usize];
    tally.remark("lookup told inside");
    let phase = exact_words::phase(out, key);
    tally.same(phase == own.wrapping_add(drift), || format!("lookup at {p:?} told inside: phase {phase:#x}, table word {own:#x}, drift {drift:#x}"));
    if let Some(message) = model::message_carried(own, tried.results) {
        let got = egl_tlwe_decrypt_message_lv0(p, &mut [Arg::Num(tried.results), lent(out), lent(key)]);
        tally.same(got == message << 32, || format!("lookup at {p:?} told inside: decrypts to {got:#x}, meant message {message} of {}", tried.results));
        tally.remark("message decrypted as meant");
    }
    if [1 << 29, 7 << 29].contains(&own) {
        let (got, meant) = (egl_tlwe_decrypt_bit_lv0(p, &mut [lent(out), lent(key)]), u64::from(own == 1 << 29));
        tally.same(got == meant << 32, || format!("lookup at {p:?} told inside: decrypts to {got:#x}, meant the bit {meant}"));
        tally.remark("bit decrypted as meant");
    }
}

/// The reckoning by its own laws: the output's drift is what the phase leaves beside the word that the rounded phase takes, inside or not; where the brought-in drift is inside, that
/// word is the message's own.
fn in_the_model(tally: &mut Tally, r: &Reckoner, tried: &Tried, looked: &Looked) {
    let taken = model::taken(r, &tried.table, &tried.c);
    let short = centred(r.level0_phase(&looked.out) - taken);
    tally.same(short == looked.drift, || format!("reckoning of a lookup at {:?}: drift {}, by its phase {short}", r.p, looked.drift));
    let modulus = tried.table.len() as u64;
    if looked.brought.abs() < margin(modulus) {
        let own = Whole::from(tried.table[(tried.value % modulus) as usize]);
        tally.same(centred(taken - own) == 0, || format!("reckoning of a lookup at {:?}: brought in {}, and another word than the message's", r.p, looked.brought));
    }
}

/// Lookups whose drifts are on the margins, next to them and at the limits: the brought-in one where the output's is 0, and the output's where the brought-in one is 0. The first goes by
/// whole steps of b's rounding; the second by the error of a switching row that is used once, for the rotation does not depend on it.
fn at_the_margins(tally: &mut Tally, source: &mut Source, keys: &Keys, r: &Reckoner, table: &[u32]) {
    let (p, modulus) = (&keys.p, table.len() as u64);
    let (step, room) = (1 << (31 - p[1]), margin(modulus));
    let results = source.of(&MODULI);
    let bound = margin(results);
    // the last two are on the margins that the other modulus has
    let brought = [0, room, -room, room - step, step - room, room + step, -room - step, -(1 << 31), bound, -bound].map(|shift| (shift, 0));
    let left = [bound, -bound, bound - 1, 1 - bound, bound + 1, -bound - 1, (1 << 31) - 1, -(1 << 31), room, -room].map(|drift| (0, drift));
    for (shift, drift) in brought.into_iter().chain(left) {
        let value = source.next();
        let c = rounded(source, keys, message_word(value, modulus).wrapping_add(word(shift)));
        let mut tried = Tried { table: table.to_vec(), results, value, c };
        let before = model::reckoned(r, table, results, value, &tried.c);
        let Some(row) = exact::chosen(p, &before.sample).first().copied() else {
            tally.remark("no switching row was used, so the drift could not be set");
            continue;
        };
        let at = (row + 1) * (p[0] as usize + 1) - 1;
        let mut switching = keys.switching.clone();
        switching[at] = switching[at].wrapping_add(word(before.drift - drift));
        let other = Keys { p: *p, key_lv0: keys.key_lv0.clone(), key_lv1: keys.key_lv1.clone(), switching, bootstrapping: keys.bootstrapping.clone() };
        let reckoner = Reckoner::new(*p, &other.key_lv0, &other.key_lv1, &other.switching, &other.bootstrapping);
        let looked = compare(tally, source, &other, &reckoner, &tried);
        // a shift that is no whole step is rounded to one
        let made = looked.drift == drift && (shift % step != 0 || looked.brought == centred(shift));
        tally.same(made, || format!("lookup at {p:?}: drifts {} and {}, to be made {shift} and {drift}", looked.brought, looked.drift));
        if drift != 0 && drift.abs() == bound || shift != 0 && shift.abs() == room {
            tally.remark("drift on its margin");
        }
        // the same once more, told as a number past the modulus
        tried.value = value % modulus + modulus * source.below(1 << 40);
        compare(tally, source, &other, &reckoner, &tried);
    }
}

/// A ciphertext of the plain word whose masks are whole steps, so that rounding leaves the phase as it is where the word is whole steps too.
fn rounded(source: &mut Source, keys: &Keys, plain: u32) -> Vec<u32> {
    let mut out: Vec<u32> = keys.key_lv0.iter().map(|_| (source.next() as u32) << (31 - keys.p[1])).collect();
    let masks = out.iter().zip(&keys.key_lv0).fold(0u32, |sum, (mask, s)| sum.wrapping_add(mask.wrapping_mul(*s)));
    out.push(masks.wrapping_add(plain));
    out
}
