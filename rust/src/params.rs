//! The six numbers, and the lengths that follow from them.

use crate::{ffi, Refusal};

/// A parameter set. Any numbers can stand in it; [`Params::check`] tells whether they are in range.
#[derive(Debug, Clone, Copy, PartialEq, Eq, Hash)]
pub struct Params {
    /// Words of a level-0 key, 1 to 1,100.
    pub n: u32,
    /// N = 2^nbit is the length of a polynomial; 1 to 10.
    pub nbit: u32,
    /// Bits of a digit of the decomposition, 1 to 24.
    pub bgbit: u32,
    /// Digits of the decomposition, at least 1; l * bgbit is at most 32.
    pub l: u32,
    /// Bits of a field of the key switching, 1 to 6.
    pub basebit: u32,
    /// Fields of the key switching, at least 1; basebit * t is at most 30.
    pub t: u32,
}

/// How many elements each slice has at a parameter set.
#[derive(Debug, Clone, Copy, PartialEq, Eq, Hash)]
#[non_exhaustive]
pub struct Lengths {
    /// N, the words of a polynomial.
    pub polynomial: usize,
    /// n, the words of a level-0 secret key, and the masks of one ciphertext.
    pub secret_level0: usize,
    /// N, the words of a level-1 secret key.
    pub secret_level1: usize,
    /// n + 1, the words of a ciphertext.
    pub ciphertext: usize,
    /// (2^basebit - 1) * t * N, the rows of the switching key.
    pub switching_rows: usize,
    /// n + 1 for each row, the words of the switching key.
    pub switching_key: usize,
    /// n for each row, the masks that its generation is lent.
    pub switching_masks: usize,
    /// One for each row, the noise words that its generation is lent.
    pub switching_noise: usize,
    /// (n + 1) * 2^basebit * t * N, the words that the switching key had up to version 5, with its idle rows: see
    /// [`OwnedCloudKey::from_former_words`](crate::OwnedCloudKey::from_former_words).
    pub former_switching_key: usize,
    /// n * 2l * 2N, the words of the bootstrapping key.
    pub bootstrapping_key: usize,
    /// n * 2l * N, the masks that its generation is lent.
    pub bootstrapping_masks: usize,
    /// n * 2l * N, the noise words that its generation is lent.
    pub bootstrapping_noise: usize,
}

impl Params {
    /// The six numbers in the library's order.
    pub const fn new(n: u32, nbit: u32, bgbit: u32, l: u32, basebit: u32, t: u32) -> Params {
        Params { n, nbit, bgbit, l, basebit, t }
    }

    /// Refused with [`Refusal::Parameter`] where a number is outside its range.
    pub fn check(self) -> Result<(), Refusal> {
        Refusal::of_answer(ffi::params_check(self)).map(|_| ())
    }

    /// The lengths of all slices. Refused with [`Refusal::Parameter`] where a number is outside its range.
    pub fn lengths(self) -> Result<Lengths, Refusal> {
        self.check()?;
        // In range the largest product is below 2^29, so nothing saturates here; were it otherwise, no slice would have that length.
        let product = |factors: &[u64]| {
            let product = factors.iter().fold(1u64, |all, factor| all.saturating_mul(*factor));
            usize::try_from(product).unwrap_or(usize::MAX)
        };
        let (n, l, t) = (u64::from(self.n), u64::from(self.l), u64::from(self.t));
        let power = |exponent: u32| 1u64.checked_shl(exponent).unwrap_or(u64::MAX);
        let (polynomial, base) = (power(self.nbit), power(self.basebit));
        let (more, digits) = (n.saturating_add(1), base.saturating_sub(1));
        let rows = digits.saturating_mul(t).saturating_mul(polynomial);
        Ok(Lengths {
            polynomial: product(&[polynomial]),
            secret_level0: product(&[n]),
            secret_level1: product(&[polynomial]),
            ciphertext: product(&[more]),
            switching_rows: product(&[rows]),
            switching_key: product(&[rows, more]),
            switching_masks: product(&[rows, n]),
            switching_noise: product(&[rows]),
            former_switching_key: product(&[more, base, t, polynomial]),
            bootstrapping_key: product(&[n, 2, l, 2, polynomial]),
            bootstrapping_masks: product(&[n, 2, l, polynomial]),
            bootstrapping_noise: product(&[n, 2, l, polynomial]),
        })
    }
}
