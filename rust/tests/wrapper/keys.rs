//! Encryption and decryption, keys from lent masks and noise against keys that are drawn, and a source that fails.

use crate::seeded::{keys, keys_at, little, Seeded, CIPHERTEXT, OUTSIDE, POLYNOMIAL, TINY};
use egl::{lent, CloudKey, Error, Gate, Noise, OwnedCloudKey, Params, Random, Refusal, SecretKeys, SystemRandom};
use std::io;

#[test]
fn bits_messages_and_turns_come_back() {
    let (secret, _) = keys(30);
    let mut seeded = Seeded(31);
    let bits = seeded.bits(50);
    let all = secret.encrypt_bits(&bits, little(), &mut seeded.source()).unwrap();
    assert_eq!(secret.decrypt_bits(&all).unwrap(), bits);
    for modulus in [2u64, 4, 8, 16, 32, 64] {
        for value in 0..modulus + 3 {
            let c = secret.encrypt_message(value, modulus, little(), &mut seeded.source()).unwrap();
            assert_eq!(secret.decrypt_message(modulus, &c), Ok((value % modulus) as u32), "{value} of {modulus}");
        }
    }
    for (turn, bit) in [(0.125, true), (-0.125, false), (0.3, true), (-0.4, false), (1.25, true), (f64::NAN, true), (f64::INFINITY, true)] {
        // Without noise a phase of 0 stays 0, which reads as true.
        let none = Noise::new(0.0, 0.0).unwrap();
        let c = secret.encrypt_turn(turn, none, &mut seeded.source()).unwrap();
        assert_eq!(secret.decrypt_bit(&c), Ok(bit), "{turn}");
    }
}

#[test]
fn a_key_of_another_draws_other_bits() {
    let (secret, _) = keys(32);
    let (other, _) = keys(33);
    assert_ne!(secret.level0(), other.level0());
    assert!(secret.level0().iter().chain(secret.level1()).all(|word| *word < 2));
    let ones: u32 = secret.level1().iter().sum();
    assert!((6..27).contains(&ones), "{ones} ones of 32");
    assert!(!format!("{secret:?}").contains("level"));
}

fn words(seeded: &mut Seeded, count: usize) -> Vec<u32> {
    (0..count).map(|_| seeded.next() as u32).collect()
}

/// Noise from -4 to 4.
fn small(seeded: &mut Seeded, count: usize) -> Vec<u32> {
    (0..count).map(|_| (seeded.next() % 9) as u32).map(|e| e.wrapping_sub(4)).collect()
}

#[test]
fn lent_generation_gives_working_keys() {
    // The same masks and noise, lent by hand: the keys evaluate.
    let (secret, _) = keys(34);
    let lengths = secret.lengths();
    let mut seeded = Seeded(35);
    let mut switching = vec![0; lengths.switching_key];
    let (masks, noise) = (words(&mut seeded, lengths.switching_masks), small(&mut seeded, lengths.switching_noise));
    lent::switching_key(TINY, secret.level0(), secret.level1(), &masks, &noise, &mut switching).unwrap();
    let mut bootstrapping = vec![0; lengths.bootstrapping_key];
    let (masks, noise) = (words(&mut seeded, lengths.bootstrapping_masks), small(&mut seeded, lengths.bootstrapping_noise));
    lent::bootstrapping_key(TINY, secret.level0(), secret.level1(), &masks, &noise, &mut bootstrapping).unwrap();
    let cloud = OwnedCloudKey::from_words(TINY, switching, bootstrapping).unwrap();
    let bits = [true, false].map(|bit| secret.encrypt_bit(bit, little(), &mut seeded.source()).unwrap());
    for (a, b) in [(0, 0), (0, 1), (1, 0), (1, 1)] {
        let out = cloud.view().evaluate(Gate::Nand, &[&bits[a], &bits[b]]).unwrap();
        assert_eq!(secret.decrypt_bit(&out), Ok(!(a == 0 && b == 0)));
    }
}

/// The rows (i, j, k) that a switching key has, in their order.
fn rows(params: Params) -> impl Iterator<Item = [usize; 3]> {
    let [ring, fields, base] = [1 << params.nbit, params.t as usize, 1 << params.basebit];
    (0..ring).flat_map(move |i| (0..fields).flat_map(move |j| (1..base).map(move |k| [i, j, k])))
}

/// Row (i, j, k) by the words of the header: its masks, and b with their sum under the key, the noise and k * z_i * 2^(32 - (j + 1) * basebit).
fn row(secret: &SecretKeys, [i, j, k]: [usize; 3], masks: &[u32], noise: u32) -> Vec<u32> {
    let inner = masks.iter().zip(secret.level0()).fold(0u32, |sum, (mask, bit)| sum.wrapping_add(mask * bit));
    let carried = (k as u32 * secret.level1()[i]) << (32 - (j as u32 + 1) * secret.params().basebit);
    masks.iter().copied().chain([inner.wrapping_add(noise).wrapping_add(carried)]).collect()
}

/// A switching key from these masks and this noise as it was laid out up to version 5: row (i, j, k) at 2^basebit * (t * i + j) + k, and junk in the rows with k = 0.
fn former(secret: &SecretKeys, masks: &[u32], noise: &[u32], seeded: &mut Seeded) -> Vec<u32> {
    let (params, one) = (secret.params(), secret.lengths().ciphertext);
    let mut out = words(seeded, secret.lengths().former_switching_key);
    for (index, (masks, noise)) in rows(params).zip(masks.chunks(one - 1).zip(noise)) {
        let [i, j, k] = index;
        let place = (params.t as usize * i + j) * (1 << params.basebit) + k;
        out[place * one..(place + 1) * one].copy_from_slice(&row(secret, index, masks, *noise));
    }
    out
}

/// Fresh secret keys, and the switching key that is generated from the masks and the noise beside it.
fn generated(params: Params, seed: u64) -> (SecretKeys, Vec<u32>, Vec<u32>, Vec<u32>) {
    let mut seeded = Seeded(seed);
    let secret = SecretKeys::draw(params, &mut seeded.source()).unwrap();
    let lengths = secret.lengths();
    let (masks, noise) = (words(&mut seeded, lengths.switching_masks), small(&mut seeded, lengths.switching_noise));
    let mut switching = words(&mut seeded, lengths.switching_key);
    lent::switching_key(params, secret.level0(), secret.level1(), &masks, &noise, &mut switching).unwrap();
    (secret, switching, masks, noise)
}

/// BASEBIT and T at both ends of their ranges, and in the middle.
const LAYOUTS: [Params; 5] =
    [TINY, Params::new(1, 1, 1, 1, 1, 1), Params::new(3, 2, 24, 1, 6, 5), Params::new(2, 3, 16, 2, 1, 30), Params::new(5, 4, 6, 3, 2, 9)];

#[test]
fn rows_are_looked_up_from_k_1_on() {
    for params in LAYOUTS {
        let (secret, switching, masks, noise) = generated(params, 50);
        let bootstrapping = vec![0; secret.lengths().bootstrapping_key];
        let cloud = CloudKey::new(params, &switching, &bootstrapping).unwrap();
        let one = secret.lengths().ciphertext;
        let mut place = 0;
        for (index, (masks, noise)) in rows(params).zip(masks.chunks(one - 1).zip(&noise)) {
            let [i, j, k] = index;
            let found = cloud.switching_row(i, j, k).unwrap();
            assert_eq!(found, row(&secret, index, masks, *noise), "{params:?} {index:?}");
            // The rows stand one after another, and none is left out.
            assert_eq!(found, &switching[place..place + one]);
            place += one;
            if k == 1 {
                assert_eq!(cloud.switching_row(i, j, 0), Err(Refusal::Index));
                assert_eq!(cloud.switching_row(i, j, 1 << params.basebit), Err(Refusal::Index));
            }
        }
        assert_eq!(place, switching.len());
    }
}

#[test]
fn idle_rows_are_dropped() {
    for params in LAYOUTS {
        let (secret, switching, masks, noise) = generated(params, 51);
        // What the idle rows hold does not matter.
        for seed in [52, 53] {
            let former = former(&secret, &masks, &noise, &mut Seeded(seed));
            let mut out = vec![9; switching.len()];
            assert_eq!(lent::drop_idle_rows(params, &former, &mut out), Ok(()));
            assert_eq!(out, switching, "{params:?}");
        }
    }
}

#[test]
fn a_former_key_evaluates_alike() {
    let (secret, switching, masks, noise) = generated(TINY, 54);
    let mut seeded = Seeded(55);
    let bootstrapping = OwnedCloudKey::draw(&secret, little(), &mut seeded.source()).unwrap().view().bootstrapping().to_vec();
    let old = former(&secret, &masks, &noise, &mut seeded);
    let cloud = OwnedCloudKey::from_former_words(TINY, &old, bootstrapping.clone()).unwrap();
    let new = OwnedCloudKey::from_words(TINY, switching, bootstrapping).unwrap();
    assert_eq!(cloud, new);
    let bits = [true, false].map(|bit| secret.encrypt_bit(bit, little(), &mut seeded.source()).unwrap());
    for gate in Gate::ALL {
        let operands: Vec<&[u32]> = [0, 1, 0].iter().take(gate.operands()).map(|at| bits[*at].as_slice()).collect();
        assert_eq!(cloud.view().evaluate(gate, &operands), new.view().evaluate(gate, &operands), "{gate}");
    }
    let nand = cloud.view().evaluate(Gate::Nand, &[&bits[0], &bits[0]]).unwrap();
    assert_eq!(secret.decrypt_bit(&nand), Ok(false));
}

#[test]
fn layouts_are_told_apart_by_their_lengths() {
    let (secret, cloud) = keys_at(TINY, 56);
    let (lengths, view) = (secret.lengths(), cloud.view());
    let former = vec![3; lengths.former_switching_key];
    // A former key where today's is wanted, and the other way round.
    assert_eq!(CloudKey::new(TINY, &former, view.bootstrapping()).err(), Some(Refusal::Length));
    assert_eq!(OwnedCloudKey::from_words(TINY, former.clone(), view.bootstrapping().to_vec()).err(), Some(Refusal::Length));
    let refusal = |params: Params, former: &[u32], bootstrapping: &[u32]| match OwnedCloudKey::from_former_words(params, former, bootstrapping.to_vec()) {
        Err(Error::Refused(refusal)) => Some(refusal),
        _ => None,
    };
    assert_eq!(refusal(TINY, &former, view.bootstrapping()), None);
    assert_eq!(refusal(TINY, view.switching(), view.bootstrapping()), Some(Refusal::Length));
    assert_eq!(refusal(TINY, &former[1..], view.bootstrapping()), Some(Refusal::Length));
    assert_eq!(refusal(TINY, &former, &view.bootstrapping()[1..]), Some(Refusal::Length));
    assert_eq!(refusal(OUTSIDE, &[], &[]), Some(Refusal::Parameter));
    // Either slice of the lent form; nothing is written.
    let mut out = vec![5; lengths.switching_key + CIPHERTEXT];
    let (all, right) = (former.len(), lengths.switching_key);
    for (words, length) in [(all - 1, right), (all - CIPHERTEXT, right), (right, right), (0, right), (all, right + 1), (all, right - 1), (all, 0)] {
        assert_eq!(lent::drop_idle_rows(TINY, &former[..words], &mut out[..length]), Err(Refusal::Length), "{words} {length}");
    }
    assert_eq!(lent::drop_idle_rows(TINY, &former, &mut out), Err(Refusal::Length));
    assert_eq!(lent::drop_idle_rows(OUTSIDE, &former, &mut out[..right]), Err(Refusal::Parameter));
    assert!(out.iter().all(|word| *word == 5));
    assert_eq!((right, all), (7 * 5 * POLYNOMIAL * CIPHERTEXT, 8 * 5 * POLYNOMIAL * CIPHERTEXT));
    // Nor is a key made in the former layout any more.
    let mut made = vec![5; all];
    let (masks, noise) = (vec![0; lengths.switching_masks], vec![0; lengths.switching_noise]);
    assert_eq!(lent::switching_key(TINY, secret.level0(), secret.level1(), &masks, &noise, &mut made), Err(Refusal::Length));
    assert!(made.iter().all(|word| *word == 5));
}

#[test]
fn the_system_source_fills() {
    let mut random = SystemRandom::open().unwrap();
    let (mut first, mut second) = ([0; 64], [0; 64]);
    random.fill(&mut first).unwrap();
    random.fill(&mut second).unwrap();
    assert_ne!(first, second);
}

/// A source that gives so many bytes and then fails.
struct Short(usize);

impl Random for Short {
    fn fill(&mut self, bytes: &mut [u8]) -> io::Result<()> {
        self.0 = self.0.checked_sub(bytes.len()).ok_or_else(|| io::Error::new(io::ErrorKind::UnexpectedEof, "empty"))?;
        bytes.fill(0x5A);
        Ok(())
    }
}

#[test]
fn a_failing_source_is_told() {
    for bytes in [0, 40, 159, 160] {
        let outcome = SecretKeys::draw(TINY, &mut Short(bytes));
        assert_eq!(matches!(outcome, Err(Error::Random(_))), bytes < 160, "{bytes}");
    }
    let (secret, _) = keys(36);
    assert!(matches!(OwnedCloudKey::draw(&secret, little(), &mut Short(10_000)), Err(Error::Random(_))));
    assert!(matches!(secret.encrypt_bit(true, little(), &mut Short(32)), Err(Error::Random(_))));
}
