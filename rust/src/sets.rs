//! Parameter sets: the published ones that are in the library's range, and one to practise with.
//!
//! The numbers are those of rs-tfhe's src/params.rs: `n`, `nbit`, `bgbit`, `l`, `basebit` and `iks_t`, and as noise the two fields `alpha`:
//! `tlwe_lv0.alpha` (there also `KSK_ALPHA`) for ciphertexts and the switching key, `tlwe_lv1.alpha` (also `BSK_ALPHA`) for the
//! bootstrapping key. Its Uint7 and Uint8 are outside the range and refused with 1.
//!
//! Noise is drawn in words of 2^-32 of a turn. At level 1 the values of Uint2 to Uint6 are so far below one word that the drawn noise is nearly
//! always 0: at those sets the bootstrapping key hides nothing. They are here since they are published, for runs whose secrecy does not matter.

use crate::{Noise, Params};

/// A parameter set with its name and its noise.
#[derive(Debug, Clone, Copy, PartialEq)]
pub struct Set {
    /// A short name: `80`, `110`, `128`, `uint1` to `uint6`, `practice`.
    pub name: &'static str,
    /// The six numbers.
    pub params: Params,
    /// The standard deviations.
    pub noise: Noise,
}

const fn set(name: &'static str, params: Params, level0: f64, level1: f64) -> Set {
    Set { name, params, noise: Noise::stated(level0, level1) }
}

/// `SECURITY_80_BIT`.
pub const SECURITY_80: Set = set("80", Params::new(550, 10, 6, 3, 2, 7), 5.0e-5, 3.73e-8);
/// `SECURITY_110_BIT`.
pub const SECURITY_110: Set = set("110", Params::new(630, 10, 6, 3, 2, 8), 3.0517578125e-5, 2.980_232_238_769_531_3e-8);
/// `SECURITY_128_BIT`, the original's default.
pub const SECURITY_128: Set = set("128", Params::new(700, 10, 6, 3, 2, 9), 2.0e-5, 2.0e-8);
/// `SECURITY_UINT1`.
pub const UINT1: Set = set("uint1", Params::new(700, 10, 10, 2, 2, 8), 2.0e-5, 2.0e-8);
/// `SECURITY_UINT2`.
pub const UINT2: Set = set("uint2", Params::new(687, 10, 18, 1, 4, 3), 0.000_021_208_468_930_699_72, 0.000_000_000_002_318_412_275_270_499_5);
/// `SECURITY_UINT3`.
pub const UINT3: Set = set("uint3", Params::new(820, 10, 23, 1, 6, 2), 0.000_002_516_761_609_597_955_4, 0.000_000_000_000_000_222_044_604_925_031_3);
/// `SECURITY_UINT4`.
pub const UINT4: Set = set("uint4", Params::new(820, 10, 22, 1, 5, 3), 0.000_002_516_761_609_597_955_4, 0.000_000_000_000_000_222_044_604_925_031_3);
/// `SECURITY_UINT5`.
pub const UINT5: Set = set("uint5", Params::new(1071, 10, 22, 1, 6, 3), 7.088_226_765_410_43e-8, 2.220_446_049_250_313_1e-17);
/// `SECURITY_UINT6`.
pub const UINT6: Set = set("uint6", Params::new(1071, 10, 22, 1, 6, 3), 7.088_226_765_410_43e-8, 2.220_446_049_250_313_1e-17);

/// The published sets in range.
pub const PUBLISHED: [Set; 9] = [SECURITY_80, SECURITY_110, SECURITY_128, UINT1, UINT2, UINT3, UINT4, UINT5, UINT6];

/// A small set to try things with: a gate takes a fraction of a second. It gives no secrecy.
pub const PRACTICE: Set = set("practice", Params::new(20, 7, 7, 3, 3, 5), 3.0e-9, 3.0e-9);

/// The set of a name, published or [`PRACTICE`].
pub fn by_name(name: &str) -> Option<Set> {
    PUBLISHED.iter().chain(&[PRACTICE]).find(|set| set.name == name).copied()
}
