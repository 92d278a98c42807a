//! The key that evaluates gates and can decrypt nothing.

use crate::random::fill_words;
use crate::{ffi, lent, Error, Gate, Lengths, Noise, Params, Random, Refusal, SecretKeys};
use std::fmt;

/// The cloud key as two lent slices, the switching key and the bootstrapping key. Their words may be anything at all: a gate on keys that
/// carry nothing gives a result that means nothing, and it ends.
#[derive(Clone, Copy)]
pub struct CloudKey<'a> {
    params: Params,
    lengths: Lengths,
    keys: ffi::Cloud<'a>,
}

/// The methods that evaluate one gate of two inputs each.
macro_rules! two_inputs {
    ($($(#[$doc:meta])* $name:ident;)*) => { $(
        $(#[$doc])*
        pub fn $name(&self, a: &[u32], b: &[u32], out: &mut [u32]) -> Result<(), Refusal> {
            Refusal::of_answer(ffi::$name(self.params, a, b, self.keys, out)).map(|_| ())
        }
    )* };
}

/// Gates. Each operand and `out` have n + 1 words; refused with 2 otherwise, and then `out` is as it was.
impl<'a> CloudKey<'a> {
    two_inputs! {
        /// not (a and b)
        nand;
        /// a or b
        or;
        /// a and b
        and;
        /// not (a or b)
        nor;
        /// (not a) and b
        and_ny;
        /// a and (not b)
        and_yn;
        /// (not a) or b
        or_ny;
        /// a or (not b)
        or_yn;
        /// a xor b
        xor;
        /// a xor b: the original's gate of this name computes xor, and so does the library's. For the Boolean xnor negate [`CloudKey::xor`].
        xnor;
    }

    /// b where a is true, else c: two rotations and one switch.
    pub fn mux(&self, a: &[u32], b: &[u32], c: &[u32], out: &mut [u32]) -> Result<(), Refusal> {
        Refusal::of_answer(ffi::mux(self.params, a, b, c, self.keys, out)).map(|_| ())
    }

    /// b where a is true, else c, made of three gates.
    pub fn mux_naive(&self, a: &[u32], b: &[u32], c: &[u32], out: &mut [u32]) -> Result<(), Refusal> {
        Refusal::of_answer(ffi::mux_naive(self.params, a, b, c, self.keys, out)).map(|_| ())
    }

    /// not a: each word negated.
    pub fn not(&self, a: &[u32], out: &mut [u32]) -> Result<(), Refusal> {
        Refusal::of_answer(ffi::not(self.params, a, out)).map(|_| ())
    }

    /// A copy of a.
    pub fn copy(&self, a: &[u32], out: &mut [u32]) -> Result<(), Refusal> {
        Refusal::of_answer(ffi::copy(self.params, a, out)).map(|_| ())
    }

    /// A bit that every key decrypts.
    pub fn constant(&self, bit: bool, out: &mut [u32]) -> Result<(), Refusal> {
        Refusal::of_answer(ffi::constant(self.params, bit, out)).map(|_| ())
    }

    /// Any gate, by name. Refused with 2 also where the number of operands is not [`Gate::operands`].
    pub fn gate(&self, gate: Gate, operands: &[&[u32]], out: &mut [u32]) -> Result<(), Refusal> {
        match (gate, operands) {
            (Gate::Nand, [a, b]) => self.nand(a, b, out),
            (Gate::Or, [a, b]) => self.or(a, b, out),
            (Gate::And, [a, b]) => self.and(a, b, out),
            (Gate::Nor, [a, b]) => self.nor(a, b, out),
            (Gate::AndNy, [a, b]) => self.and_ny(a, b, out),
            (Gate::AndYn, [a, b]) => self.and_yn(a, b, out),
            (Gate::OrNy, [a, b]) => self.or_ny(a, b, out),
            (Gate::OrYn, [a, b]) => self.or_yn(a, b, out),
            (Gate::Xor, [a, b]) => self.xor(a, b, out),
            (Gate::Xnor, [a, b]) => self.xnor(a, b, out),
            (Gate::Mux, [a, b, c]) => self.mux(a, b, c, out),
            (Gate::MuxNaive, [a, b, c]) => self.mux_naive(a, b, c, out),
            (Gate::Not, [a]) => self.not(a, out),
            (Gate::Copy, [a]) => self.copy(a, out),
            (Gate::Constant(bit), []) => self.constant(bit, out),
            _ => Err(Refusal::Length),
        }
    }

    /// Any gate, by name, into a new ciphertext.
    pub fn evaluate(&self, gate: Gate, operands: &[&[u32]]) -> Result<Vec<u32>, Refusal> {
        let mut out = vec![0; self.lengths.ciphertext];
        self.gate(gate, operands, &mut out)?;
        Ok(out)
    }
}

impl<'a> CloudKey<'a> {
    /// Takes the two keys. Refused with 1 where a parameter is outside its range, with 2 where a key has not its length.
    pub fn new(params: Params, switching: &'a [u32], bootstrapping: &'a [u32]) -> Result<CloudKey<'a>, Refusal> {
        let lengths = params.lengths()?;
        if switching.len() != lengths.switching_key || bootstrapping.len() != lengths.bootstrapping_key {
            return Err(Refusal::Length);
        }
        Ok(CloudKey { params, lengths, keys: ffi::Cloud { switching, bootstrapping } })
    }

    /// The parameter set.
    pub fn params(&self) -> Params {
        self.params
    }

    /// The lengths at that set.
    pub fn lengths(&self) -> Lengths {
        self.lengths
    }

    /// The switching key's words.
    pub fn switching(&self) -> &'a [u32] {
        self.keys.switching
    }

    /// The bootstrapping key's words.
    pub fn bootstrapping(&self) -> &'a [u32] {
        self.keys.bootstrapping
    }

    /// Row (i, j, k) of the switching key, n + 1 words: i below N, j below t, k from 1 to 2^basebit - 1. Refused with 3 otherwise.
    pub fn switching_row(&self, i: usize, j: usize, k: usize) -> Result<&'a [u32], Refusal> {
        Refusal::of_answer(ffi::switching_row_answer(self.params, self.keys.switching.len(), i, j, k))?;
        let row = Refusal::of_answer(ffi::switching_row_index(self.params, i, j, k))?;
        let row = usize::try_from(row).map_err(|_| Refusal::Index)?;
        self.keys.switching.chunks_exact(self.lengths.ciphertext).nth(row).ok_or(Refusal::Index)
    }

    pub(crate) fn keys(&self) -> ffi::Cloud<'a> {
        self.keys
    }
}

/// The keys are long: their words stay out of logs.
impl fmt::Debug for CloudKey<'_> {
    fn fmt(&self, f: &mut fmt::Formatter<'_>) -> fmt::Result {
        f.debug_struct("CloudKey").field("params", &self.params).finish_non_exhaustive()
    }
}

/// A cloud key with its memory.
#[derive(Clone, PartialEq, Eq)]
pub struct OwnedCloudKey {
    params: Params,
    lengths: Lengths,
    switching: Vec<u32>,
    bootstrapping: Vec<u32>,
}

impl OwnedCloudKey {
    /// Draws masks and noise and makes both keys. At the 128-bit set they take 112 MB, and while they are made as much as 78 MB more.
    pub fn draw<R: Random + ?Sized>(secret: &SecretKeys, noise: Noise, random: &mut R) -> Result<OwnedCloudKey, Error> {
        let (params, lengths) = (secret.params(), secret.lengths());
        let mut switching = zeros(lengths.switching_key)?;
        {
            let mut masks = zeros(lengths.switching_masks)?;
            let mut errors = zeros(lengths.switching_noise)?;
            fill_words(random, &mut masks)?;
            noise.fill_level0(random, &mut errors)?;
            lent::switching_key(params, secret.level0(), secret.level1(), &masks, &errors, &mut switching)?;
        }
        let mut bootstrapping = zeros(lengths.bootstrapping_key)?;
        let mut masks = zeros(lengths.bootstrapping_masks)?;
        let mut errors = zeros(lengths.bootstrapping_noise)?;
        fill_words(random, &mut masks)?;
        noise.fill_level1(random, &mut errors)?;
        lent::bootstrapping_key(params, secret.level0(), secret.level1(), &masks, &errors, &mut bootstrapping)?;
        Ok(OwnedCloudKey { params, lengths, switching, bootstrapping })
    }

    /// Takes keys that the caller has. Refused with 1 where a parameter is outside its range, with 2 where a key has not its length.
    pub fn from_words(params: Params, switching: Vec<u32>, bootstrapping: Vec<u32>) -> Result<OwnedCloudKey, Refusal> {
        let lengths = CloudKey::new(params, &switching, &bootstrapping)?.lengths();
        Ok(OwnedCloudKey { params, lengths, switching, bootstrapping })
    }

    /// Takes keys that were made up to version 5 of the interface: the switching key with its idle rows, which are dropped, and the bootstrapping key, which is
    /// as it was. Refused as [`OwnedCloudKey::from_words`] is; a switching key that has no idle rows any more is refused with 2.
    pub fn from_former_words(params: Params, former: &[u32], bootstrapping: Vec<u32>) -> Result<OwnedCloudKey, Error> {
        let mut switching = zeros(params.lengths()?.switching_key)?;
        lent::drop_idle_rows(params, former, &mut switching)?;
        Ok(OwnedCloudKey::from_words(params, switching, bootstrapping)?)
    }

    /// The key as the gates take it.
    pub fn view(&self) -> CloudKey<'_> {
        // All ways to make an owned key have checked what `CloudKey::new` checks.
        CloudKey { params: self.params, lengths: self.lengths, keys: ffi::Cloud { switching: &self.switching, bootstrapping: &self.bootstrapping } }
    }
}

/// The keys are long: their words stay out of logs.
impl fmt::Debug for OwnedCloudKey {
    fn fmt(&self, f: &mut fmt::Formatter<'_>) -> fmt::Result {
        f.debug_struct("OwnedCloudKey").field("params", &self.params).finish_non_exhaustive()
    }
}

/// Memory for a key; large, so its absence is told and does not end the program.
fn zeros(length: usize) -> Result<Vec<u32>, Error> {
    let mut words = Vec::new();
    words.try_reserve_exact(length).map_err(|_| Error::Memory)?;
    words.resize(length, 0);
    Ok(words)
}
