//! Sums of encrypted messages, which cost no rotation.

use crate::{lent, message_word, CloudKey, Refusal};

/// Sums of messages, for tables that take them.
///
/// All messages of a sum, and the table that takes it, have one modulus M. The library adds words and knows no messages: **that the sum stays from 0 to M - 1 is the caller's to see
/// to.** Half a turn is M, and past it the words turn their sign: of a sum m + M, and of m - M, a table of modulus M gives the word of m negated, which is another message and
/// the other bit.
///
/// Drifts add like the messages, by the same multiples: 2 * high + low brings in twice the drift of high. Choose multiples and modulus together, and look at
/// [`CloudKey::lookup_drift`] for what is left of the margin.
impl CloudKey<'_> {
    /// The plain message plus the terms, each a ciphertext with its multiplier, all of one modulus.
    ///
    /// ```no_run
    /// # fn compared(key: egl::CloudKey<'_>, a: &[u32], b: &[u32]) -> Result<Vec<u32>, egl::Refusal> {
    /// // Digits a and b from 0 to 3, as messages of modulus 8: 3 + a - b is from 0 to 6, and 3 where they are alike.
    /// key.evaluate_sum(8, 3, &[(1, a), (-1, b)])
    /// # }
    /// ```
    ///
    /// Refused with 2 where a ciphertext has not n + 1 words, then with 5 for a modulus other than 2, 4, 8, 16, 32, 64.
    pub fn evaluate_sum(&self, modulus: u64, plain: u64, terms: &[(i32, &[u32])]) -> Result<Vec<u32>, Refusal> {
        let mut sum = vec![0; self.lengths().ciphertext];
        if terms.iter().any(|(_, ciphertext)| ciphertext.len() != sum.len()) {
            return Err(Refusal::Length);
        }
        let word = message_word(plain, modulus)?;
        // A plain message is a ciphertext without masks: every key decrypts it.
        if let Some(body) = sum.last_mut() {
            *body = word;
        }
        let mut next = sum.clone();
        for (multiplier, ciphertext) in terms {
            // Modulo 2^32 a negative multiplier is the word that it is.
            lent::add_mul(self.params(), &sum, ciphertext, *multiplier as u32, &mut next)?;
            std::mem::swap(&mut sum, &mut next);
        }
        Ok(sum)
    }
}
