//! Lookups: a table on an encrypted message, and for whoever holds the secret keys what the margins leave.

use crate::{ffi, CloudKey, Refusal, Secrets, Table};

/// What a lookup with drift tells. All words count 2^-32 of a turn.
#[derive(Debug, Clone, Copy, PartialEq, Eq, Hash)]
#[non_exhaustive]
pub struct LookupDrift {
    /// The brought-in drift: the message's own, its phase less its word, and what rounding adds.
    pub brought: i32,
    /// The output's drift, reckoned from what the rotation brings to the front. Where the brought-in drift is inside its margin, that is the table's word, and this is the own drift of
    /// the message in the next table, or of the bit in a gate.
    pub drift: i32,
    /// Whether both are strictly inside their margins. Then the output's phase is the table's word plus the output's drift, and it decrypts to the message, or the bit, whose word that
    /// is: that is proved, for any key material and any ciphertext.
    pub inside: bool,
    /// The margin of the brought-in drift, 2^30 / modulus.
    pub brought_margin: u32,
    /// The margin of the output's drift, 2^30 / results.
    pub drift_margin: u32,
}

impl LookupDrift {
    /// How much of its margin the brought-in drift takes: below 1 where it is inside.
    pub fn brought_share(&self) -> f64 {
        share(self.brought, self.brought_margin)
    }

    /// How much of its margin the output's drift takes: below 1 where it is inside.
    pub fn drift_share(&self) -> f64 {
        share(self.drift, self.drift_margin)
    }

    /// The larger share of the two: below 1 exactly where both are inside.
    pub fn share(&self) -> f64 {
        self.brought_share().max(self.drift_share())
    }
}

/// Both words are exact as doubles, and a margin is a power of two: so is the quotient.
fn share(drift: i32, margin: u32) -> f64 {
    f64::from(drift.unsigned_abs()) / f64::from(margin)
}

/// Lookups. The message's ciphertext and `out` have n + 1 words; refused with 2 otherwise, with 5 where twice the table's modulus does not divide N, and then `out` is as it was.
///
/// ```no_run
/// use egl::{sets, OwnedCloudKey, SecretKeys, SystemRandom, Table};
///
/// # fn main() -> Result<(), Box<dyn std::error::Error>> {
/// let set = sets::UINT4;
/// let mut random = SystemRandom::open()?;
/// let secret = SecretKeys::draw(set.params, &mut random)?;
/// let cloud = OwnedCloudKey::draw(&secret, set.noise, &mut random)?;
/// let (squares, above) = (Table::messages(8, 8, |m| m * m)?, Table::bits(8, |m| m > 2)?);
///
/// let five = secret.encrypt_message(5, 8, set.noise, &mut random)?;
/// let square = cloud.view().evaluate_lookup(&squares, &five)?;
/// assert_eq!(secret.decrypt_message(8, &square)?, 25 % 8);
/// // A table takes what a table gave: the results of the first are of the second's modulus.
/// let bit = cloud.view().evaluate_lookup(&above, &square)?;
/// assert!(!secret.decrypt_bit(&bit)?);
/// // The same with its drifts.
/// let (_, told) = cloud.view().evaluate_lookup_drift(&squares, &secret, 5, &five)?;
/// println!("{:.0} % of the margin brought in, {:.0} % left by the result", 100.0 * told.brought_share(), 100.0 * told.drift_share());
/// # Ok(())
/// # }
/// ```
impl CloudKey<'_> {
    /// The table's word of the message in `ciphertext`, encrypted. It takes one blind rotation, as long as a gate of two inputs.
    pub fn lookup(&self, table: &Table, ciphertext: &[u32], out: &mut [u32]) -> Result<(), Refusal> {
        Refusal::of_answer(ffi::lookup(self.params(), table.modulus(), table.as_words(), ciphertext, self.keys(), out)).map(|_| ())
    }

    /// The same into a new ciphertext.
    pub fn evaluate_lookup(&self, table: &Table, ciphertext: &[u32]) -> Result<Vec<u32>, Refusal> {
        let mut out = vec![0; self.lengths().ciphertext];
        self.lookup(table, ciphertext, &mut out)?;
        Ok(out)
    }

    /// What [`CloudKey::lookup`] does, and its drifts, for whoever holds both secret keys. `value`, modulo the table's modulus, is the message that the ciphertext is meant to
    /// carry. Refused with 2, with 4 for the secret keys, then with 5.
    pub fn lookup_drift<'s>(
        &self,
        table: &Table,
        secret: impl Into<Secrets<'s>>,
        value: u64,
        ciphertext: &[u32],
        out: &mut [u32],
    ) -> Result<LookupDrift, Refusal> {
        let Secrets { level0, level1 } = secret.into();
        let (brought_margin, drift_margin) = (table.margin_in()?, table.margin_out()?);
        let mut drifts = [0; 2];
        let answer = ffi::lookup_drift(
            self.params(),
            table.modulus(),
            table.as_words(),
            table.results(),
            value,
            self.keys(),
            level0,
            level1,
            ciphertext,
            out,
            &mut drifts,
        );
        let inside = Refusal::of_answer(answer)? != 0;
        let [brought, drift] = drifts.map(|word| word as i32);
        Ok(LookupDrift { brought, drift, inside, brought_margin, drift_margin })
    }

    /// The same into a new ciphertext.
    pub fn evaluate_lookup_drift<'s>(
        &self,
        table: &Table,
        secret: impl Into<Secrets<'s>>,
        value: u64,
        ciphertext: &[u32],
    ) -> Result<(Vec<u32>, LookupDrift), Refusal> {
        let mut out = vec![0; self.lengths().ciphertext];
        let told = self.lookup_drift(table, secret, value, ciphertext, &mut out)?;
        Ok((out, told))
    }
}
