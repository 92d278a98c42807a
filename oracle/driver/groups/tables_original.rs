//! Lookups beside the original's own `blind_rotate_with_testvec`: any vector with junk keys word for word where its transform is exact, and messages with honest keys, decrypted, where the
//! set has room for them; at N 1,024 nothing else can be compared with it. The original has no tables, so it is lent the test vector of the model.

use crate::case::{Arg, Set};
use crate::compare::{Tally, SLOW};
use crate::draw::MODULI;
use crate::exact_words::{self, message_word};
use crate::ffi::tables::egl_trgsw_blind_rotate_with_testvec;
use crate::honest::{Keys, Spread};
use crate::layout;
use crate::lookup_tables::{self as model, margin};
use crate::reckoning::Reckoner;
use crate::sizes::Sizes;
use crate::source::Source;
use crate::table::carries;
use oracle_api::Cloud;
use super::fine;
use super::tables::{drift_cost, lookup_cost, rotation_cost};
use super::tables_messages::{self as messages, Tried};

pub fn run(tally: &mut Tally, source: &mut Source, set: &Set) {
    if set.original.is_some() && fine(&set.p) {
        word_for_word(tally, source, set);
    }
    let spread = published(&set.p);
    let room: Vec<u64> = MODULI.into_iter().filter(|m| carries(1 << set.p[1], *m) && 7.0 * deviation(&set.p, spread) < margin(*m) as f64).collect();
    if !room.is_empty() {
        with_honest(tally, source, set, spread, &room);
    }
}

/// Any vector, any words.
fn word_for_word(tally: &mut Tally, source: &mut Source, set: &Set) {
    let (s, o) = (Sizes::of(&set.p), set.original.expect("the original"));
    let cost = rotation_cost(&s);
    if cost > 1_000_000_000 / SLOW {
        return;
    }
    for _ in 0..(60_000_000 / SLOW / cost).clamp(1, 100) {
        let mut words = |len: usize| -> Vec<u32> { (0..len).map(|_| source.next() as u32).collect() };
        let (key, src, va, vb) = (words(s.bootstrapping()), words(s.n + 1), words(s.ring), words(s.ring));
        let mut args = [&src, &va, &vb, &key, &words(s.ring), &words(s.ring)].map(|x| Arg::Words(x.to_vec()));
        let answer = egl_trgsw_blind_rotate_with_testvec(&set.p, &mut args);
        let theirs = o.cloud(&[], &key).blind_rotate_with_testvec(&src, &va, &vb);
        let same = answer == 0 && args[4].w() == theirs.0 && args[5].w() == theirs.1;
        tally.same(same, || format!("rotation of a lent vector at {:?}: other words than the original's", set.p));
        tally.remark("rotation with the words of the original's");
    }
}

/// The published deviations that go with these digits: those of Uint5 beside the widest ones, else about those for 128 bits.
fn published(p: &[u32; 6]) -> Spread {
    match p[2] {
        20.. => Spread { level0: 304.4, level1: 0.0 },
        11..20 => Spread { level0: 91_090.0, level1: 0.01 },
        _ => Spread { level0: 85_899.0, level1: 86.0 },
    }
}

/// About how far a lookup's drifts go, the larger of the two: it chooses the moduli that a set has room for.
fn deviation(p: &[u32; 6], spread: Spread) -> f64 {
    let [n, nbit, bgbit, l, basebit, t] = p.map(f64::from);
    let (ring, uniform) = (nbit.exp2(), 12f64.sqrt());
    let rounded = spread.level0.hypot((n / 2.0 + 1.0).sqrt() * (31.0 - nbit).exp2() / uniform);
    // cleared low bits are half their width on average, and a coefficient of their phase is the sum of up to N/2 of them
    let cleared = if bgbit * l < 32.0 { (31.0 - bgbit * l).exp2() * ring / uniform * (n / 2.0).sqrt() } else { 0.0 };
    let rows = spread.level1 * bgbit.exp2() / uniform * (2.0 * l * ring * n).sqrt();
    let switched = (spread.level0 * (ring * t).sqrt()).hypot((32.0 - basebit * t).exp2() / uniform * (ring / 2.0).sqrt());
    rounded.max(cleared.hypot(rows).hypot(switched)) + (2.0 * ring)
}

/// A table of messages at each modulus that there is room for: on every message where that is cheap, else on two; where a rotation takes seconds, at the largest modulus alone, and there
/// on two messages or on one.
fn with_honest(tally: &mut Tally, source: &mut Source, set: &Set, spread: Spread, room: &[u64]) {
    let s = Sizes::of(&set.p);
    let cost = lookup_cost(&s) * SLOW;
    let keys = Keys::spread(source, set.p, spread);
    let cloud = set.original.map(|o| layout::cloud(o, &keys.switching, &keys.bootstrapping));
    // the reckoner works the errors of all rows out beforehand
    let reckoner = (drift_cost(&s) < 1_500_000_000 / SLOW).then(|| Reckoner::new(set.p, &keys.key_lv0, &keys.key_lv1, &keys.switching, &keys.bootstrapping));
    for modulus in room.iter().copied() {
        let last = Some(&modulus) == room.last();
        let messages: Vec<u64> = match cost {
            0..=100_000_000 => (0..modulus).collect(),
            100_000_001..=1_000_000_000 => vec![source.below(modulus), modulus - 1],
            1_000_000_001..=5_000_000_000 if last => vec![0, modulus - 1],
            _ if last => vec![1],
            _ => Vec::new(),
        };
        let table: Vec<u32> = (0..modulus).map(|_| message_word(source.next(), modulus)).collect();
        for (k, value) in messages.into_iter().enumerate() {
            let c = keys.encrypt_word(source, message_word(value, modulus), spread.level0);
            decrypted(tally, source, set, &keys, cloud.as_deref(), &table, &c, value);
            if let (Some(cloud), true) = (&cloud, k < 2 && cost <= 1_000_000_000) {
                rotated(tally, source, set, &keys, cloud.as_ref(), &table, &c, value);
            }
            if let (Some(r), true) = (&reckoner, k < 3) {
                messages::compare(tally, source, &keys, r, &Tried { table: table.clone(), results: modulus, value, c });
            }
        }
    }
}

/// The library's message, the original's and the table's own.
fn decrypted(tally: &mut Tally, source: &mut Source, set: &Set, keys: &Keys, cloud: Option<&dyn Cloud>, table: &[u32], c: &[u32], value: u64) {
    let (p, modulus) = (&set.p, table.len() as u64);
    let message = |c: &[u32]| exact_words::message_of(exact_words::phase(c, &keys.key_lv0), modulus);
    let meant = model::message_carried(table[value as usize], modulus).expect("a table of messages");
    let got = messages::library(source, keys, table, c);
    let ours = got.as_deref().map(message);
    tally.same(ours == Some(meant), || format!("lookup at {p:?}: message {value} of {modulus} gives {ours:?}, meant {meant}"));
    let (Some(cloud), Some(o)) = (cloud, set.original) else { return };
    let (va, vb) = model::testvec(1 << p[1], table);
    let (a, b) = cloud.blind_rotate_with_testvec(c, &va, &vb);
    let theirs = cloud.identity_key_switching(&o.sample_extract_index(&a, &b, 0));
    let (own, told) = (message(&theirs), o.tlwe_decrypt_message(0, modulus, &theirs, &keys.key_lv0));
    tally.same(ours == Some(own) && own == told, || format!("lookup at {p:?}: message {value} of {modulus} gives {ours:?}, by the original {own}, which decrypts it as {told}"));
    tally.remark(if got.is_some_and(|got| got == theirs) { "lookup with the words of the original's" } else { "lookup with the message of the original's, whose words are its transform's" });
}

/// The library's rotation of the lent vector in place of the original's, which extracts and switches what it gives.
fn rotated(tally: &mut Tally, source: &mut Source, set: &Set, keys: &Keys, cloud: &dyn Cloud, table: &[u32], c: &[u32], value: u64) {
    let (p, modulus, o) = (&set.p, table.len() as u64, set.original.expect("the original"));
    let (va, vb) = model::testvec(1 << p[1], table);
    let mut blank = || (0..1 << p[1]).map(|_| source.next() as u32).collect::<Vec<u32>>();
    let mut args = [c, &va, &vb, &keys.bootstrapping, &blank(), &blank()].map(|words| Arg::Words(words.to_vec()));
    let answer = egl_trgsw_blind_rotate_with_testvec(p, &mut args);
    let switched = cloud.identity_key_switching(&o.sample_extract_index(args[4].w(), args[5].w(), 0));
    let (got, meant) = (o.tlwe_decrypt_message(0, modulus, &switched, &keys.key_lv0), model::message_carried(table[value as usize], modulus));
    tally.same(answer == 0 && Some(got) == meant, || format!("rotation of a table at {p:?}: message {value} of {modulus} gives {got}, meant {meant:?} (answer {answer:#x})"));
}
