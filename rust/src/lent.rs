//! Encryption, decryption, sums and generation of keys with everything lent: masks, noise, keys and the place of the result. Nothing is
//! allocated and nothing is drawn. [`Params::lengths`] tells how long each slice has to be.
//!
//! Masks have to be uniform and secret keys uniform bits, each drawn once; the noise hides the message. That is the caller's part:
//! [`SecretKeys`](crate::SecretKeys) and [`OwnedCloudKey`](crate::OwnedCloudKey) do it from a random source.

use crate::{ffi, Params, Refusal};

fn done(answer: u64) -> Result<(), Refusal> {
    Refusal::of_answer(answer).map(|_| ())
}

/// Encrypts a bit, as -1/8 (false) or 1/8 (true) of a turn: `out` becomes the masks and then b = masks * key + word + noise.
///
/// `masks` and `key` have n words, `out` n + 1. Refusals: 1, 2, 4.
pub fn encrypt_bit(params: Params, bit: bool, masks: &[u32], noise: u32, key: &[u32], out: &mut [u32]) -> Result<(), Refusal> {
    done(ffi::encrypt_bit(params, bit, masks, noise, key, out))
}

/// Encrypts a fraction of a turn; a number that is not finite counts as 0.
///
/// `masks` and `key` have n words, `out` n + 1. Refusals: 1, 2, 4.
pub fn encrypt_turn(params: Params, turn: f64, masks: &[u32], noise: u32, key: &[u32], out: &mut [u32]) -> Result<(), Refusal> {
    done(ffi::encrypt_turn(params, turn, masks, noise, key, out))
}

/// Encrypts a message, `value` modulo `modulus` (2, 4, 8, 16, 32 or 64), as that multiple of 1/(2 * modulus) of a turn.
///
/// `masks` and `key` have n words, `out` n + 1. Refusals: 1, 2, 4, 5.
#[allow(clippy::too_many_arguments)]
pub fn encrypt_message(params: Params, value: u64, modulus: u64, masks: &[u32], noise: u32, key: &[u32], out: &mut [u32]) -> Result<(), Refusal> {
    done(ffi::encrypt_message(params, value, modulus, masks, noise, key, out))
}

/// The bit of a ciphertext of n + 1 words under a key of n words. Refusals: 1, 2, 4.
pub fn decrypt_bit(params: Params, ciphertext: &[u32], key: &[u32]) -> Result<bool, Refusal> {
    Refusal::of_answer(ffi::decrypt_bit(params, ciphertext, key)).map(|value| value != 0)
}

/// The message of a ciphertext of n + 1 words under a key of n words; it is below `modulus`. Refusals: 1, 2, 4, 5.
pub fn decrypt_message(params: Params, modulus: u64, ciphertext: &[u32], key: &[u32]) -> Result<u32, Refusal> {
    Refusal::of_answer(ffi::decrypt_message(params, modulus, ciphertext, key))
}

/// The drift of a ciphertext of n + 1 words that is meant to carry a bit, under a key of n words: its phase less 2^29 for true, less -2^29 for false, in
/// 2^-32 of a turn. Refusals: 1, 2, 4.
pub fn fresh_drift(params: Params, ciphertext: &[u32], bit: bool, key: &[u32]) -> Result<i32, Refusal> {
    Refusal::of_answer(ffi::fresh_drift(params, key, ciphertext, u8::from(bit))).map(|drift| drift as i32)
}

/// a + b, word by word modulo 2^32: the sum of two messages of one modulus, if it is below that (see [`CloudKey::evaluate_sum`](crate::CloudKey::evaluate_sum)). Each has
/// n + 1 words. Refusals: 1, 2.
pub fn add(params: Params, a: &[u32], b: &[u32], out: &mut [u32]) -> Result<(), Refusal> {
    done(ffi::add(params, a, b, out))
}

/// a - b, as [`add`].
pub fn sub(params: Params, a: &[u32], b: &[u32], out: &mut [u32]) -> Result<(), Refusal> {
    done(ffi::sub(params, a, b, out))
}

/// a + multiplier * b, as [`add`]. The drift of b counts as often.
pub fn add_mul(params: Params, a: &[u32], b: &[u32], multiplier: u32, out: &mut [u32]) -> Result<(), Refusal> {
    done(ffi::add_mul(params, a, b, multiplier, out))
}

/// a - multiplier * b, as [`add`]. The drift of b counts as often.
pub fn sub_mul(params: Params, a: &[u32], b: &[u32], multiplier: u32, out: &mut [u32]) -> Result<(), Refusal> {
    done(ffi::sub_mul(params, a, b, multiplier, out))
}

/// The test vector of a table's words, f(0) to f(modulus - 1): `a` becomes zero, and coefficient i of `b` f at (i * modulus + N/2) div N, where that is `modulus` f(0) negated.
///
/// `table` has `modulus` words, `a` and `b` N. Refusals: 1, 2, 5.
pub fn table_test_vector(params: Params, modulus: u64, table: &[u32], a: &mut [u32], b: &mut [u32]) -> Result<(), Refusal> {
    done(ffi::table_testvec(params, modulus, table, a, b))
}

/// Makes the switching key. Masks and noise are used in row order.
///
/// `level0` has n words, `level1` N; the others are `switching_masks`, `switching_noise` and `switching_key` of
/// [`Lengths`](crate::Lengths). Refusals: 1, 2, 4.
pub fn switching_key(params: Params, level0: &[u32], level1: &[u32], masks: &[u32], noise: &[u32], out: &mut [u32]) -> Result<(), Refusal> {
    done(ffi::switching_key(params, level0, level1, masks, noise, out))
}

/// A switching key that was made up to version 5 of the interface, without its idle rows: `out` becomes the key as it is now, each row word for word. The idle
/// rows, those with k = 0, may hold anything.
///
/// `former` and `out` are `former_switching_key` and `switching_key` of [`Lengths`](crate::Lengths). Refusals: 1, 2.
pub fn drop_idle_rows(params: Params, former: &[u32], out: &mut [u32]) -> Result<(), Refusal> {
    done(ffi::drop_idle_rows(params, former, out))
}

/// Makes the bootstrapping key: for each bit of `level0` 2l rows of 2N words.
///
/// `level0` has n words, `level1` N; the others are `bootstrapping_masks`, `bootstrapping_noise` and `bootstrapping_key` of
/// [`Lengths`](crate::Lengths). Refusals: 1, 2, 4.
pub fn bootstrapping_key(params: Params, level0: &[u32], level1: &[u32], masks: &[u32], noise: &[u32], out: &mut [u32]) -> Result<(), Refusal> {
    done(ffi::bootstrapping_key(params, level0, level1, masks, noise, out))
}
