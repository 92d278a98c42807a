//! Tables: what a lookup makes of each small message.

use crate::{lent, Params, Refusal};

/// The word of a bit for gates: an eighth of a turn, and its negation.
const TRUE: u32 = 1 << 29;
const FALSE: u32 = TRUE.wrapping_neg();

/// The modulus of bits: the margin of an output is then an eighth of a turn, as for gates.
const BITS: u64 = 2;

/// The modulus of a message, where it is one. The exponent of 2 is from 1 to 6.
fn modulus_bits(modulus: u64) -> Result<u32, Refusal> {
    match modulus {
        2 | 4 | 8 | 16 | 32 | 64 => Ok(modulus.trailing_zeros()),
        _ => Err(Refusal::Modulus),
    }
}

/// The word of the message `value` modulo `modulus`, a multiple of 1/(2 * modulus) of a turn: the messages share half a turn. Refused with 5 for a modulus other than
/// 2, 4, 8, 16, 32, 64.
///
/// ```
/// assert_eq!([0, 1, 3, 4, 5].map(|value| egl::message_word(value, 4)), [0, 1 << 29, 3 << 29, 0, 1 << 29].map(Ok));
/// assert_eq!(egl::message_word(1, 3), Err(egl::Refusal::Modulus));
/// ```
pub fn message_word(value: u64, modulus: u64) -> Result<u32, Refusal> {
    let bits = modulus_bits(modulus)?;
    // Below 64 after the mask, and so below 2^31 after the shift.
    let value = (value & modulus.saturating_sub(1)) as u32;
    Ok(value.wrapping_shl(31u32.saturating_sub(bits)))
}

/// How far a drift may be from 0, exclusively, beside messages of a modulus: half the way from one message to the next, 2^30 / modulus.
///
/// ```
/// assert_eq!([2, 8, 64].map(egl::message_margin), [1 << 29, 1 << 27, 1 << 24].map(Ok));
/// ```
pub fn message_margin(modulus: u64) -> Result<u32, Refusal> {
    modulus_bits(modulus).map(|bits| (1u32 << 30).wrapping_shr(bits))
}

/// A table on the messages of a modulus, which is 2, 4, 8, 16, 32 or 64: a word for each message. [`CloudKey::lookup`](crate::CloudKey::lookup) turns a ciphertext of the
/// message m into one of the word f(m), by one blind rotation. A set takes a table where twice its modulus divides N; the lookup is refused with 5 otherwise.
///
/// Three ways to make one, of a closure or of words:
///
/// ```
/// use egl::Table;
///
/// // Squares modulo 8 as messages of modulus 8: such a table takes its own results.
/// let squares = Table::messages(8, 8, |m| m * m)?;
/// // Whether a message is above 2, as a bit that a gate takes.
/// let above = Table::bits(8, |m| m > 2)?;
/// // Any words: quarters of a turn.
/// let quarters = Table::words(4, vec![0, 1 << 30, 2 << 30, 3 << 30])?;
/// assert_eq!((squares.modulus(), squares.results()), (8, 8));
/// assert_eq!((above.as_words()[2], above.as_words()[3]), (0xE000_0000, 0x2000_0000));
/// assert_eq!(quarters.as_words().len(), 4);
/// # Ok::<(), egl::Refusal>(())
/// ```
///
/// Tables chain: what a table of results R gives, a table of modulus R takes.
#[derive(Debug, Clone, PartialEq, Eq, Hash)]
pub struct Table {
    modulus: u64,
    results: u64,
    words: Vec<u32>,
}

impl Table {
    /// Messages of modulus `results`, that of m being `f(m)` modulo `results`; `f` is asked once for each m below `modulus`, in order. Refused with 5 where one of the two is
    /// no modulus, and then `f` is not asked.
    pub fn messages(modulus: u64, results: u64, mut f: impl FnMut(u64) -> u64) -> Result<Table, Refusal> {
        modulus_bits(modulus)?;
        modulus_bits(results)?;
        let words = (0..modulus).map(|m| message_word(f(m), results)).collect::<Result<Vec<u32>, Refusal>>()?;
        Ok(Table { modulus, results, words })
    }

    /// Bits for gates, that of m being `f(m)`; `f` is asked once for each m below `modulus`, in order. The result of a lookup is an operand of gates and circuits, and
    /// [`SecretKeys::decrypt_bit`](crate::SecretKeys::decrypt_bit) decrypts it. Refused with 5 for another modulus, and then `f` is not asked.
    pub fn bits(modulus: u64, mut f: impl FnMut(u64) -> bool) -> Result<Table, Refusal> {
        modulus_bits(modulus)?;
        let words = (0..modulus).map(|m| if f(m) { TRUE } else { FALSE }).collect();
        Ok(Table { modulus, results: BITS, words })
    }

    /// Any words, one for each message. The output's drift is judged by an eighth of a turn; [`Table::judged_as`] sets another margin. Refused with 2 where the words are not
    /// `modulus` many, then with 5 for another modulus.
    pub fn words(modulus: u64, words: Vec<u32>) -> Result<Table, Refusal> {
        if u64::try_from(words.len()) != Ok(modulus) {
            return Err(Refusal::Length);
        }
        modulus_bits(modulus)?;
        Ok(Table { modulus, results: BITS, words })
    }

    /// The same words with another modulus of the results: the margin by which the output's drift is judged, and the modulus of a table that takes them. Refused with 5 for
    /// another modulus.
    pub fn judged_as(self, results: u64) -> Result<Table, Refusal> {
        modulus_bits(results)?;
        Ok(Table { results, ..self })
    }

    /// The modulus of the messages that it takes.
    pub fn modulus(&self) -> u64 {
        self.modulus
    }

    /// The modulus of the messages that it gives; 2 for bits.
    pub fn results(&self) -> u64 {
        self.results
    }

    /// Its words, one for each message.
    pub fn as_words(&self) -> &[u32] {
        &self.words
    }

    /// The test vector that a lookup rotates at a set, N words: its b, for its a is zero. Refused with 1, and with 5 where twice the modulus does not divide N.
    pub fn test_vector(&self, params: Params) -> Result<Vec<u32>, Refusal> {
        let length = params.lengths()?.polynomial;
        let (mut a, mut b) = (vec![0; length], vec![0; length]);
        lent::table_test_vector(params, self.modulus, &self.words, &mut a, &mut b)?;
        Ok(b)
    }

    /// The margin of the brought-in drift, in 2^-32 of a turn. The modulus is one, so the margin is there.
    pub(crate) fn margin_in(&self) -> Result<u32, Refusal> {
        message_margin(self.modulus)
    }

    /// The margin of the output's drift.
    pub(crate) fn margin_out(&self) -> Result<u32, Refusal> {
        message_margin(self.results)
    }
}
