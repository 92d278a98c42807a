//! Drift: how far a wire's phase is from what it carries, for whoever holds the secret keys. Runs of a whole circuit in one call.

use crate::{ffi, Circuit, CloudKey, DriftReport, Refusal, SecretKeys};
use std::fmt;

/// Both secret keys by reference, as a drift run takes them. Nothing is checked here: the library checks their lengths (2) and that their
/// words are 0 or 1 (4).
#[derive(Clone, Copy)]
pub struct Secrets<'a> {
    pub(crate) level0: &'a [u32],
    pub(crate) level1: &'a [u32],
}

impl<'a> Secrets<'a> {
    /// Takes the level-0 key (n words) and the level-1 key (N words).
    pub fn new(level0: &'a [u32], level1: &'a [u32]) -> Secrets<'a> {
        Secrets { level0, level1 }
    }
}

impl<'a> From<&'a SecretKeys> for Secrets<'a> {
    fn from(keys: &'a SecretKeys) -> Secrets<'a> {
        Secrets { level0: keys.level0(), level1: keys.level1() }
    }
}

/// The words stay out of logs.
impl fmt::Debug for Secrets<'_> {
    fn fmt(&self, f: &mut fmt::Formatter<'_>) -> fmt::Result {
        f.debug_struct("Secrets").finish_non_exhaustive()
    }
}

/// What a drift run of a whole circuit gives.
#[derive(Clone, PartialEq, Eq)]
pub struct Drifts {
    /// The outputs' ciphertexts, one after another.
    pub outputs: Vec<u32>,
    /// The drift of every wire in wire order, in 2^-32 of a turn.
    pub drifts: Vec<i32>,
    /// Whether the drift brought into every rotation of every gate, and every output's drift, are inside. Then each output decrypts to the plain
    /// run's bit: that is proved, for any key material and any ciphertexts.
    pub inside: bool,
}

impl Drifts {
    /// The report of the wires' drifts. A circuit has at most 1,280 wires, so that of a run is not refused; 13 for more than 65,535 drifts.
    pub fn report(&self) -> Result<DriftReport, Refusal> {
        DriftReport::of(&self.drifts)
    }
}

/// The ciphertexts are long: their words stay out of logs.
impl fmt::Debug for Drifts {
    fn fmt(&self, f: &mut fmt::Formatter<'_>) -> fmt::Result {
        f.debug_struct("Drifts").field("drifts", &self.drifts).field("inside", &self.inside).finish_non_exhaustive()
    }
}

/// Whether a drift is inside: its absolute value is below an eighth of a turn, 2^29.
pub fn inside(drift: i32) -> bool {
    ffi::drift_inside(drift as u32)
}

/// By how many bits a drift stays below 2^29: 29 less the bits of its absolute value. It is negative where the drift is outside.
///
/// ```
/// assert_eq!([0, 1, (1 << 29) - 1, 1 << 29, i32::MIN].map(egl::margin), [29, 28, 0, -1, -3]);
/// ```
pub fn margin(drift: i32) -> i32 {
    // There are at most 32 leading zeros, so this is from -3 to 29.
    (drift.unsigned_abs().leading_zeros() as i32).saturating_sub(3)
}

/// A drift's size, by which a [`DriftReport`] counts: the bits of its absolute value, 29 less its [`margin`].
///
/// ```
/// assert_eq!([0, 1, -1, (1 << 29) - 1, 1 << 29, i32::MIN].map(egl::size), [0, 1, 1, 29, 30, 32]);
/// ```
pub fn size(drift: i32) -> u32 {
    u32::BITS.saturating_sub(drift.unsigned_abs().leading_zeros())
}

/// Plain bits as the library takes them.
pub(crate) fn bytes_of(bits: &[bool]) -> Vec<u8> {
    bits.iter().map(|bit| u8::from(*bit)).collect()
}

/// Drift runs of the whole circuit in one call. They take the time of an encrypted run.
impl Circuit {
    /// Runs the circuit with everything lent, as [`Circuit::run_encrypted`] does, and puts each wire's drift into `drifts`, a word for each wire that is to be
    /// read as signed. `plain` has a byte for each input, 0 for false: the bits that the inputs are meant to carry. Tells whether all are inside (see
    /// [`Drifts::inside`]). Refused with 2, 4 for the secret keys, then with 2 for other lengths, and then nothing is written.
    #[allow(clippy::too_many_arguments)]
    pub fn run_drift<'a>(
        &self,
        key: CloudKey<'_>,
        secret: impl Into<Secrets<'a>>,
        ins: &[u32],
        plain: &[u8],
        wires: &mut [u32],
        out: &mut [u32],
        drifts: &mut [u32],
    ) -> Result<bool, Refusal> {
        let Secrets { level0, level1 } = secret.into();
        let answer = ffi::drift_run(key.params(), key.keys(), level0, level1, self.bytes(), ins, plain, wires, out, drifts);
        Refusal::of_answer(answer).map(|inside| inside != 0)
    }

    /// Runs the circuit and gives the outputs' ciphertexts, every wire's drift, and whether all are inside. `plain` are the bits that the inputs are meant to
    /// carry. Refused with 2, 4 for the secret keys, then with 2 for another number of words in `ins` or of bits.
    pub fn evaluate_drift<'a>(&self, key: CloudKey<'_>, secret: impl Into<Secrets<'a>>, ins: &[u32], plain: &[bool]) -> Result<Drifts, Refusal> {
        let words = |ciphertexts: usize| ciphertexts.saturating_mul(key.lengths().ciphertext);
        let mut wires = vec![0; words(self.wires())];
        let mut outputs = vec![0; words(self.outputs().len())];
        let mut drifts = vec![0; self.wires()];
        let inside = self.run_drift(key, secret, ins, &bytes_of(plain), &mut wires, &mut outputs, &mut drifts)?;
        Ok(Drifts { outputs, drifts: drifts.iter().map(|word| *word as i32).collect(), inside })
    }
}
