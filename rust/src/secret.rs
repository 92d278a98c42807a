//! Secret keys, held by whoever encrypts and decrypts.

use crate::random::{fill_bits, fill_words};
use crate::{lent, message_word, Error, Lengths, Noise, Params, Random, Refusal};
use std::fmt;

/// The secret keys of both levels. Level 0 encrypts and decrypts; level 1 serves the generation of the cloud key and drift runs.
#[derive(Clone, PartialEq, Eq)]
pub struct SecretKeys {
    params: Params,
    lengths: Lengths,
    level0: Vec<u32>,
    level1: Vec<u32>,
}

impl SecretKeys {
    /// Draws both keys.
    pub fn draw<R: Random + ?Sized>(params: Params, random: &mut R) -> Result<SecretKeys, Error> {
        let lengths = params.lengths()?;
        let mut level0 = vec![0; lengths.secret_level0];
        let mut level1 = vec![0; lengths.secret_level1];
        fill_bits(random, &mut level0)?;
        fill_bits(random, &mut level1)?;
        Ok(SecretKeys { params, lengths, level0, level1 })
    }

    /// Takes keys that the caller has: n and N words, each 0 or 1. Refusals: 1, 2, 4.
    pub fn from_words(params: Params, level0: Vec<u32>, level1: Vec<u32>) -> Result<SecretKeys, Refusal> {
        let lengths = params.lengths()?;
        if level0.len() != lengths.secret_level0 || level1.len() != lengths.secret_level1 {
            return Err(Refusal::Length);
        }
        if level0.iter().chain(&level1).any(|word| *word > 1) {
            return Err(Refusal::SecretKeyWord);
        }
        Ok(SecretKeys { params, lengths, level0, level1 })
    }

    /// The parameter set.
    pub fn params(&self) -> Params {
        self.params
    }

    /// The lengths at that set.
    pub fn lengths(&self) -> Lengths {
        self.lengths
    }

    /// The level-0 key, n words.
    pub fn level0(&self) -> &[u32] {
        &self.level0
    }

    /// The level-1 key, N words.
    pub fn level1(&self) -> &[u32] {
        &self.level1
    }

    /// Encrypts a bit with fresh masks and noise.
    pub fn encrypt_bit<R: Random + ?Sized>(&self, bit: bool, noise: Noise, random: &mut R) -> Result<Vec<u32>, Error> {
        self.encrypt(noise, random, |masks, noise, out| lent::encrypt_bit(self.params, bit, masks, noise, &self.level0, out))
    }

    /// Encrypts a fraction of a turn with fresh masks and noise; a number that is not finite counts as 0.
    pub fn encrypt_turn<R: Random + ?Sized>(&self, turn: f64, noise: Noise, random: &mut R) -> Result<Vec<u32>, Error> {
        self.encrypt(noise, random, |masks, noise, out| lent::encrypt_turn(self.params, turn, masks, noise, &self.level0, out))
    }

    /// Encrypts a message, `value` modulo `modulus`, with fresh masks and noise. Refused with 5 for a modulus other than 2, 4, 8, 16, 32, 64.
    pub fn encrypt_message<R: Random + ?Sized>(&self, value: u64, modulus: u64, noise: Noise, random: &mut R) -> Result<Vec<u32>, Error> {
        self.encrypt(noise, random, |masks, noise, out| lent::encrypt_message(self.params, value, modulus, masks, noise, &self.level0, out))
    }

    /// Encrypts bits, one ciphertext after another, as a circuit's run takes them.
    pub fn encrypt_bits<R: Random + ?Sized>(&self, bits: &[bool], noise: Noise, random: &mut R) -> Result<Vec<u32>, Error> {
        let mut all = Vec::new();
        for bit in bits {
            all.extend(self.encrypt_bit(*bit, noise, random)?);
        }
        Ok(all)
    }

    /// The bit of a ciphertext. Refused with 2 where it has not n + 1 words.
    pub fn decrypt_bit(&self, ciphertext: &[u32]) -> Result<bool, Refusal> {
        lent::decrypt_bit(self.params, ciphertext, &self.level0)
    }

    /// The message of a ciphertext. Refusals: 2, 5.
    pub fn decrypt_message(&self, modulus: u64, ciphertext: &[u32]) -> Result<u32, Refusal> {
        lent::decrypt_message(self.params, modulus, ciphertext, &self.level0)
    }

    /// The drift of a ciphertext that is meant to carry a bit, in 2^-32 of a turn. Refused with 2 where it has not n + 1 words.
    pub fn fresh_drift(&self, ciphertext: &[u32], bit: bool) -> Result<i32, Refusal> {
        lent::fresh_drift(self.params, ciphertext, bit, &self.level0)
    }

    /// The own drift of a ciphertext that is meant to carry a message, `value` modulo `modulus`: its phase less the message's word, in 2^-32 of a turn. Refusals: 2, 5.
    pub fn message_drift(&self, value: u64, modulus: u64, ciphertext: &[u32]) -> Result<i32, Refusal> {
        // The library tells how far the phase is from a true bit's eighth of a turn.
        let phase = lent::fresh_drift(self.params, ciphertext, true, &self.level0)?.wrapping_add(1 << 29);
        Ok(phase.wrapping_sub(message_word(value, modulus)? as i32))
    }

    /// The bits of ciphertexts that stand one after another. Refused with 2 where the last one is cut short.
    pub fn decrypt_bits(&self, ciphertexts: &[u32]) -> Result<Vec<bool>, Refusal> {
        ciphertexts.chunks(self.lengths.ciphertext).map(|one| self.decrypt_bit(one)).collect()
    }

    fn encrypt<R: Random + ?Sized>(
        &self,
        noise: Noise,
        random: &mut R,
        work: impl FnOnce(&[u32], u32, &mut [u32]) -> Result<(), Refusal>,
    ) -> Result<Vec<u32>, Error> {
        let mut masks = vec![0; self.lengths.secret_level0];
        fill_words(random, &mut masks)?;
        let word = noise.draw_level0(random)?;
        let mut out = vec![0; self.lengths.ciphertext];
        work(&masks, word, &mut out)?;
        Ok(out)
    }
}

/// The words stay out of logs.
impl fmt::Debug for SecretKeys {
    fn fmt(&self, f: &mut fmt::Formatter<'_>) -> fmt::Result {
        f.debug_struct("SecretKeys").field("params", &self.params).finish_non_exhaustive()
    }
}
