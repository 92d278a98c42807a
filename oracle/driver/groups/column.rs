//! Columns of gates: one kind on pair after pair, in one call. With junk keys word for word against the exact steps, the library's single gates and, where its
//! transform is exact, the original's batches; with honest keys by decrypted bits. What a caller may lend besides, counts above all, is in `column_lengths`.

use crate::case::{Arg, Routine, Set, Slot};
use crate::circuits;
use crate::compare::{self, Tally};
use crate::draw::PAIRS;
use crate::exact_run;
use crate::ffi::column::*;
use crate::ffi::gates::egl_gates_not;
use crate::honest::Keys;
use crate::junk;
use crate::layout;
use crate::sizes::Sizes;
use crate::source::Source;
use oracle_api::Cloud;
use super::gates::{self, BOOTSTRAPPING, SWITCHING};
use super::{column_lengths, fine};

/// The kinds that a column runs, those of two operands.
const KINDS: std::ops::RangeInclusive<usize> = 3..=12;

/// Kinds 3 to 8 by the names of the original's batches. It has none of the other four kinds, and its xnor is no xnor.
const BATCHES: [&str; 6] = ["and", "or", "nand", "nor", "xor", "xnor"];

/// Steps of a gate; each of its products clears 1,024 words, however small N is.
fn cost(s: &Sizes) -> usize {
    gates::cost(s) + 4 * s.n * s.l * 1024
}

pub static ROUTINES: [Routine; 1] = [Routine {
    name: "gate_column",
    slots: &[Slot::PairKind, Slot::Pairs, Slot::EachPair(|s| 2 * (s.n + 1)), SWITCHING, BOOTSTRAPPING, Slot::EachPairOut(|s| s.n + 1)],
    cost: |s| 3 * cost(s),
    call: egl_gate_column,
    reference: |set, a| {
        let outs = a[2].w().chunks(2 * (set.p[0] as usize + 1)).map(|pair| model(&set.p, [a[3].w(), a[4].w()], a[0].num() as usize, pair).0);
        a[5] = Arg::Words(outs.collect::<Vec<_>>().concat());
        true
    },
}];

/// What one pair gives by the exact steps, and what its gate switched.
fn model(p: &[u32; 6], [switching, bootstrapping]: [&[u32]; 2], kind: usize, pair: &[u32]) -> (Vec<u32>, Vec<u32>) {
    let (a, b) = pair.split_at(pair.len() / 2);
    let (out, sample) = exact_run::gate(p, switching, bootstrapping, kind, [a, b, &[]]);
    (out, sample.expect("a rotation"))
}

/// What one pair gives by the library's own gate; kind 8 is xor's, negated.
fn single(keys: &Keys, kind: usize, pair: &[u32]) -> Option<Vec<u32>> {
    let (a, b) = pair.split_at(pair.len() / 2);
    let out = gates::library(&keys.p, exact_run::NAMES[kind - 3], &[a, b], keys)?;
    if kind != 8 {
        return Some(out);
    }
    let mut args = [Arg::Words(out), Arg::Words(vec![0xAAAA_AAAA; a.len()])];
    (egl_gates_not(&keys.p, &mut args) == 0).then(|| args[1].w().to_vec())
}

/// The library's column; the slice to be written holds other words before. Nothing where it refuses.
fn column(source: &mut Source, keys: &Keys, kind: usize, pairs: &[u32]) -> Option<Vec<u32>> {
    let count = pairs.len() / (2 * (keys.p[0] as usize + 1));
    let out = (0..pairs.len() / 2).map(|_| source.next() as u32).collect();
    let [pairs, switching, bootstrapping] = [pairs, &keys.switching, &keys.bootstrapping].map(|x| Arg::Words(x.to_vec()));
    let mut args = [Arg::Num(kind as u64), Arg::Num(count as u64), pairs, switching, bootstrapping, Arg::Words(out)];
    (egl_gate_column(&keys.p, &mut args) == 0).then(|| args[5].w().to_vec())
}

pub fn run(set: &Set, tally: &mut Tally) {
    compare::run(tally, &ROUTINES[0], set, 20_000_000, 150);
    let mut source = Source::new(crate::SEED, &format!("column {}", set.name));
    column_lengths::run(tally, &mut source, &ROUTINES[0], set);
    let cost = cost(&Sizes::of(&set.p));
    // all kinds on seven pairs where a gate is cheap, some of them on two where it is dear
    let (rounds, step, longest) = match cost * compare::SLOW {
        0..=1_000_000 => ((1_000_000 / cost / compare::SLOW).clamp(1, 8), 1, 7),
        1_000_001..=12_000_000 => (1, 1, 2),
        12_000_001..=200_000_000 => (1, 5, 2),
        _ => (0, 1, 0),
    };
    for _ in 0..rounds {
        let keys = junk::keys(&mut source, set.p);
        for kind in KINDS.step_by(step) {
            with_junk(tally, &mut source, &keys, kind, longest);
        }
        if fine(&set.p) {
            batches(tally, &mut source, set, &keys, longest);
        }
    }
    let [n, nbit, bgbit, l, basebit, t] = set.p;
    // where a gate has room for its noise, see `gates`
    if nbit >= 5 && (n as u64) << (30 - nbit) < 1 << 29 && bgbit * l >= 12 && basebit * t >= 12 {
        let count = if cost * compare::SLOW <= 1_000_000_000 { 4 } else { 1 };
        with_honest(tally, &mut source, set, &KINDS.map(|kind| (kind, count)).collect::<Vec<_>>());
    } else if n == 700 && nbit == 10 {
        // under an emulator, where a gate takes a minute, kind 8 alone
        let columns = [(8, 1), (5, 2)];
        with_honest(tally, &mut source, set, if compare::SLOW == 1 { &columns } else { &columns[..1] });
    }
}

/// One kind on up to so many pairs, in every way.
fn with_junk(tally: &mut Tally, source: &mut Source, keys: &Keys, kind: usize, longest: usize) {
    let (p, words) = (&keys.p, keys.p[0] as usize + 1);
    let pairs: Vec<u32> = (0..longest).flat_map(|_| source.words(2 * words)).collect();
    let (meant, samples): (Vec<_>, Vec<_>) = pairs.chunks(2 * words).map(|pair| model(p, [&keys.switching, &keys.bootstrapping], kind, pair)).unzip();
    let meant = meant.concat();
    let told = |what: &str| format!("column at {p:?}: kind {kind}, {what}");

    for count in PAIRS.into_iter().filter(|count| *count <= longest) {
        let got = column(source, keys, kind, &pairs[..count * 2 * words]);
        tally.same_words(&got.unwrap_or(vec![1]), &meant[..count * words], || told(&format!("{count} pairs are not the exact steps' words")));
    }
    for (i, pair) in pairs.chunks(2 * words).enumerate() {
        let got = single(keys, kind, pair).unwrap_or_default();
        tally.same_words(&got, &meant[i * words..(i + 1) * words], || told(&format!("pair {i} by a call of its own differs")));
    }
    // two columns one after another
    let cut = source.below(longest as u64 + 1) as usize;
    let (first, second) = pairs.split_at(cut * 2 * words);
    let both = [first, second].map(|part| column(source, keys, kind, part).unwrap_or(vec![1])).concat();
    tally.same_words(&both, &meant, || told(&format!("{cut} pairs and then the rest differ")));

    one_changed(tally, source, keys, kind, &pairs, &meant);

    let other = junk::elsewhere(source, keys, &samples);
    let got = column(source, &other, kind, &pairs).unwrap_or_default();
    tally.same_words(&got, &meant, || told("other words where key rows differ that no gate uses"));
}

/// One pair changed, in one word or in all: its own output is the new pair's, and all others stay.
fn one_changed(tally: &mut Tally, source: &mut Source, keys: &Keys, kind: usize, pairs: &[u32], before: &[u32]) {
    let (p, words) = (&keys.p, keys.p[0] as usize + 1);
    let i = source.below((pairs.len() / (2 * words)) as u64) as usize;
    let mut pairs = pairs.to_vec();
    let own = &mut pairs[i * 2 * words..(i + 1) * 2 * words];
    match source.below(2) {
        0 => own[source.below(2 * words as u64) as usize] ^= 1 << 31,
        _ => own.iter_mut().for_each(|x| *x = x.wrapping_add(1 + (source.next() >> 40) as u32)),
    }
    let changed = model(p, [&keys.switching, &keys.bootstrapping], kind, own).0;
    let got = column(source, keys, kind, &pairs).unwrap_or_default();
    for (k, (was, now)) in before.chunks(words).zip(got.chunks(words)).enumerate() {
        let want = if k == i { &changed } else { was };
        tally.same_words(now, want, || format!("column at {p:?}: kind {kind}, output {k} where pair {i} was changed"));
    }
    tally.same(got.len() == before.len(), || format!("column at {p:?}: kind {kind}, refused where pair {i} was changed"));
}

/// The original's batches on the same pairs: word for word, but that its xnor is the library's gate of that name and not kind 8.
fn batches(tally: &mut Tally, source: &mut Source, set: &Set, keys: &Keys, longest: usize) {
    let Some(cloud) = set.original.map(|o| layout::cloud(o, &keys.switching, &keys.bootstrapping)) else { return };
    let words = keys.p[0] as usize + 1;
    let pairs: Vec<u32> = (0..longest).flat_map(|_| source.words(2 * words)).collect();
    for (kind, name) in KINDS.zip(BATCHES) {
        for count in PAIRS.into_iter().filter(|count| *count <= longest) {
            let pairs = &pairs[..count * 2 * words];
            let gate = |pair: &[u32]| gates::library(&keys.p, name, &[&pair[..words], &pair[words..]], keys).unwrap_or_default();
            let ours = match kind {
                8 => pairs.chunks(2 * words).flat_map(gate).collect(),
                _ => column(source, keys, kind, pairs).unwrap_or(vec![1]),
            };
            tally.same_words(&ours, &cloud.batch(name, pairs), || format!("column at {:?}: {count} pairs of {name} and the original's batch", set.p));
        }
    }
}

/// Columns, each a kind and a count. Each output decrypts to its kind's value on the pair's bits. The original's batches give the same bits, and its xnor each time
/// the other one.
fn with_honest(tally: &mut Tally, source: &mut Source, set: &Set, columns: &[(usize, usize)]) {
    let keys = Keys::new(&mut Source::new(crate::SEED, set.name), set.p);
    let cloud = set.original.map(|o| layout::cloud(o, &keys.switching, &keys.bootstrapping));
    for &(kind, count) in columns {
        let bits: Vec<[bool; 2]> = (0..count).map(|i| [(i + kind) & 1 == 1, (i + kind) & 2 == 2]).collect();
        let pairs: Vec<u32> = bits.iter().flatten().flat_map(|bit| keys.encrypt(source, *bit)).collect();
        decrypted(tally, source, &keys, cloud.as_deref(), kind, &bits, &pairs);
    }
}

fn decrypted(tally: &mut Tally, source: &mut Source, keys: &Keys, cloud: Option<&dyn Cloud>, kind: usize, bits: &[[bool; 2]], pairs: &[u32]) {
    let (p, words) = (&keys.p, keys.p[0] as usize + 1);
    let got = column(source, keys, kind, pairs).unwrap_or_default();
    tally.same(got.len() == bits.len() * words, || format!("column at {p:?}: kind {kind} refused"));
    if got.is_empty() {
        return;
    }
    let ours: Vec<bool> = got.chunks(words).map(|c| keys.decrypt(c)).collect();
    for ([a, b], bit) in bits.iter().zip(&ours) {
        let meant = circuits::value(kind, *a, *b, false);
        tally.same(*bit == meant, || format!("column at {p:?}: kind {kind} of {a} and {b} decrypts to {bit}, meant {meant}"));
    }
    for (i, pair) in pairs.chunks(2 * words).enumerate() {
        let one = single(keys, kind, pair).unwrap_or_default();
        tally.same_words(&got[i * words..(i + 1) * words], &one, || format!("column at {p:?}: kind {kind}, pair {i} by a call of its own differs"));
    }
    let (Some(cloud), Some(name)) = (cloud, BATCHES.get(kind - 3)) else { return };
    for (i, (bit, c)) in ours.iter().zip(cloud.batch(name, pairs).chunks(words)).enumerate() {
        let (theirs, meant) = (keys.decrypt(c), if kind == 8 { !*bit } else { *bit });
        tally.same(theirs == meant, || format!("column at {p:?}: kind {kind}, pair {i} gives {bit}, the original's batch of {name} {theirs}"));
        if theirs == meant {
            tally.remark(if kind == 8 { "the other bit than the original's batch of xnor, as meant" } else { "the bit of the original's batch" });
        }
    }
}
