//! The drifts of a lookup, worked out here: brought in, output, margins on both sides, and what is refused.

use crate::lookups::LONG;
use crate::seeded::{keys, keys_at, little, Seeded, CIPHERTEXT, MASKS, TINY};
use crate::tables::MODULI;
use egl::sets::PRACTICE;
use egl::{lent, message_margin, message_word, CloudKey, LookupDrift, Noise, OwnedCloudKey, Params, Refusal, SecretKeys, Secrets, Table};

/// A word's remainder: what rounding to steps of 2^-32 of a turn times 2^31 / N adds to it.
fn remainder(params: Params, word: u32) -> u32 {
    let half = 1u64 << (30 - params.nbit);
    let steps = (u64::from(word) + half) / (2 * half);
    (steps * 2 * half).wrapping_sub(u64::from(word)) as u32
}

/// The drift that a ciphertext brings in: its own, plus the last word's remainder, less the remainders that the key selects.
fn brought(secret: &SecretKeys, value: u64, modulus: u64, c: &[u32]) -> i32 {
    let (body, masks) = c.split_last().unwrap();
    let own = secret.message_drift(value, modulus, c).unwrap() as u32;
    let chosen = masks.iter().zip(secret.level0()).map(|(mask, bit)| bit * remainder(secret.params(), *mask));
    chosen.fold(own.wrapping_add(remainder(secret.params(), *body)), u32::wrapping_sub) as i32
}

fn phase(secret: &SecretKeys, c: &[u32]) -> u32 {
    secret.message_drift(0, 2, c).unwrap() as u32
}

/// One lookup, held to what can be worked out: the brought-in drift always, the output's where the brought-in one is inside, and the judgement.
fn held(secret: &SecretKeys, cloud: &OwnedCloudKey, table: &Table, value: u64, c: &[u32]) -> LookupDrift {
    let (out, told) = cloud.view().evaluate_lookup_drift(table, secret, value, c).unwrap();
    assert_eq!(out, cloud.view().evaluate_lookup(table, c).unwrap());
    assert_eq!(told.brought, brought(secret, value, table.modulus(), c));
    let margins = (message_margin(table.modulus()).unwrap(), message_margin(table.results()).unwrap());
    assert_eq!((told.brought_margin, told.drift_margin), margins);
    let inside = [(told.brought, margins.0), (told.drift, margins.1)].map(|(drift, margin)| drift.unsigned_abs() < margin);
    assert_eq!((told.inside, told.share() < 1.0), (inside == [true; 2], inside == [true; 2]));
    assert_eq!([told.brought_share() < 1.0, told.drift_share() < 1.0], inside);
    if inside[0] {
        let word = table.as_words()[(value % table.modulus()) as usize];
        assert_eq!(phase(secret, &out), word.wrapping_add(told.drift as u32));
    }
    told
}

#[test]
fn drifts_are_what_phases_leave() {
    let mut seeded = Seeded(140);
    for (params, seed) in [(TINY, 141), (LONG, 142), (PRACTICE.params, 143)] {
        let (secret, cloud) = keys_at(params, seed);
        for modulus in MODULI.into_iter().filter(|modulus| params.lengths().unwrap().polynomial as u64 % (2 * modulus) == 0) {
            // Words of any kind, judged by any modulus.
            let results = MODULI[seeded.below(6)];
            let table = Table::words(modulus, (0..modulus).map(|_| seeded.next() as u32).collect()).unwrap().judged_as(results).unwrap();
            for _ in 0..2 {
                let value = seeded.next();
                let c = secret.encrypt_message(value, modulus, little(), &mut seeded.source()).unwrap();
                held(&secret, &cloud, &table, value, &c);
            }
        }
    }
}

/// A ciphertext without masks, whose drift is known: strictly inside on both sides, and outside from the margin on.
#[test]
fn margins_are_strict() {
    let (secret, cloud) = keys_at(LONG, 144);
    // Rounding takes the drift to a multiple of this.
    let step = 1i32 << (31 - LONG.nbit);
    for modulus in MODULI {
        let table = Table::messages(modulus, 2, |m| m).unwrap();
        let margin = message_margin(modulus).unwrap() as i32;
        for (drift, inside) in [(0, true), (margin - step, true), (margin, false), (step - margin, true), (-margin, false)] {
            for value in [0, 1, modulus - 1] {
                let body = message_word(value, modulus).unwrap().wrapping_add(drift as u32);
                let told = held(&secret, &cloud, &table, value, &[0, 0, 0, body]);
                assert_eq!((told.brought, told.inside), (drift, inside), "{value} of {modulus}");
            }
        }
    }
}

/// The output's drift is the next message's own.
#[test]
fn a_chains_drifts_join() {
    let (secret, cloud) = keys_at(PRACTICE.params, 145);
    let mut seeded = Seeded(146);
    let table = Table::messages(8, 8, |m| 5 * m + 3).unwrap();
    let mut value = 6;
    let mut c = secret.encrypt_message(value, 8, PRACTICE.noise, &mut seeded.source()).unwrap();
    for link in 0..4 {
        let told = held(&secret, &cloud, &table, value, &c);
        assert!(told.inside, "{link}: {told:?}");
        c = cloud.view().evaluate_lookup(&table, &c).unwrap();
        value = (5 * value + 3) % 8;
        assert_eq!((secret.decrypt_message(8, &c), secret.message_drift(value, 8, &c)), (Ok(value as u32), Ok(told.drift)));
    }
    // And that of a bit for gates.
    let (bit, told) = cloud.view().evaluate_lookup_drift(&Table::bits(8, |m| m > 3).unwrap(), &secret, value, &c).unwrap();
    assert!(told.inside);
    assert_eq!(secret.fresh_drift(&bit, value > 3), Ok(told.drift));
}

/// Keys of a tenth of a turn's noise, and keys of any words: the judgement stays right, and not all is inside.
#[test]
fn too_much_noise_is_told() {
    let mut seeded = Seeded(147);
    let much = Noise::new(0.1, 0.1).unwrap();
    let secret = SecretKeys::draw(TINY, &mut seeded.source()).unwrap();
    let noisy = OwnedCloudKey::draw(&secret, much, &mut seeded.source()).unwrap();
    let lengths = TINY.lengths().unwrap();
    let mut words = |count: usize| -> Vec<u32> { (0..count).map(|_| seeded.next() as u32).collect() };
    let any = OwnedCloudKey::from_words(TINY, words(lengths.switching_key), words(lengths.bootstrapping_key)).unwrap();
    let table = Table::messages(4, 4, |m| m + 1).unwrap();
    for cloud in [&noisy, &any] {
        let inside = (0..12).filter(|value| {
            let c = secret.encrypt_message(*value, 4, little(), &mut seeded.source()).unwrap();
            let told = held(&secret, cloud, &table, *value, &c);
            let right = secret.decrypt_message(4, &cloud.view().evaluate_lookup(&table, &c).unwrap()) == Ok(((value + 1) % 4) as u32);
            assert!(right || !told.inside, "{value}");
            told.inside
        });
        assert!(inside.count() < 12);
    }
}

#[test]
fn refusals_come_in_order_and_write_nothing() {
    let (secret, cloud) = keys(148);
    let c = secret.encrypt_message(1, 4, little(), &mut Seeded(149).source()).unwrap();
    let (level0, level1) = (secret.level0(), secret.level1());
    let (mut wrong0, mut wrong1) = (level0.to_vec(), level1.to_vec());
    wrong0[MASKS - 1] = 2;
    wrong1[0] = u32::MAX;
    let call = |modulus, level0: &[u32], level1: &[u32], c: &[u32], out: usize| {
        let mut out = vec![7; out];
        let table = Table::bits(modulus, |m| m > 0).unwrap();
        let told = cloud.view().lookup_drift(&table, Secrets::new(level0, level1), 1, c, &mut out).err();
        assert_eq!(told.is_some(), out.iter().all(|word| *word == 7));
        told
    };
    assert_eq!(call(4, level0, level1, &c, CIPHERTEXT), None);
    for modulus in [4, 32] {
        // Lengths, then words that are no bits, then the modulus, of which twice 32 does not divide N = 32.
        assert_eq!(call(modulus, &level0[1..], &wrong1, &c, CIPHERTEXT), Some(Refusal::Length));
        assert_eq!(call(modulus, &wrong0, &level1[1..], &c, CIPHERTEXT), Some(Refusal::Length));
        assert_eq!(call(modulus, &wrong0, level1, &c[1..], CIPHERTEXT), Some(Refusal::Length));
        assert_eq!(call(modulus, &wrong0, level1, &c, CIPHERTEXT - 1), Some(Refusal::Length));
        assert_eq!(call(modulus, &wrong0, level1, &c, CIPHERTEXT), Some(Refusal::SecretKeyWord));
        assert_eq!(call(modulus, level0, &wrong1, &c, CIPHERTEXT), Some(Refusal::SecretKeyWord));
    }
    assert_eq!(call(32, level0, level1, &c, CIPHERTEXT), Some(Refusal::Modulus));
    let table = Table::bits(64, |m| m > 0).unwrap();
    let view: CloudKey<'_> = cloud.view();
    assert_eq!(view.evaluate_lookup_drift(&table, &secret, 1, &c).err(), Some(Refusal::Modulus));
    assert_eq!(lent::add(TINY, &c, &c, &mut []), Err(Refusal::Length));
}
