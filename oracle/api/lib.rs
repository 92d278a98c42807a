//! What the driver asks of a copy of the original, one object for each parameter set:
//! plain slices in, vectors out, so that the driver is compiled once for all sets.

/// The two polynomials of a TRLWE ciphertext.
pub type Pair = (Vec<u32>, Vec<u32>);

/// A cloud key made from lent coefficients, and what the original does with it.
pub trait Cloud: Sync {
    fn blind_rotate(&self, src: &[u32]) -> Pair;
    fn blind_rotate_with_testvec(&self, src: &[u32], a: &[u32], b: &[u32]) -> Pair;
    fn identity_key_switching(&self, src: &[u32]) -> Vec<u32>;
    /// A gate by the name it has in the original; `c` is read by the mux gates alone.
    fn gate(&self, name: &str, a: &[u32], b: &[u32], c: &[u32]) -> Vec<u32>;
    /// A gate on pair after pair, by the original's batch function of that name: it has six.
    fn batch(&self, name: &str, pairs: &[u32]) -> Vec<u32>;
}

/// The original, compiled for one parameter set. `level` is 0 or 1.
pub trait Original: Sync {
    /// n, NBIT, BGBIT, L, BASEBIT, T.
    fn params(&self) -> [u32; 6];
    fn published(&self) -> Vec<(&'static str, [u32; 6])>;

    fn f64_to_torus(&self, d: f64) -> u32;
    fn torus_to_f64(&self, t: u32) -> f64;
    fn f64_to_torus_vec(&self, d: &[f64]) -> Vec<u32>;

    fn tlwe_add(&self, level: u32, a: &[u32], b: &[u32]) -> Vec<u32>;
    fn tlwe_sub(&self, level: u32, a: &[u32], b: &[u32]) -> Vec<u32>;
    fn tlwe_neg(&self, level: u32, a: &[u32]) -> Vec<u32>;
    fn tlwe_add_mul(&self, level: u32, a: &[u32], b: &[u32], multiplier: u32) -> Vec<u32>;
    fn tlwe_sub_mul(&self, level: u32, a: &[u32], b: &[u32], multiplier: u32) -> Vec<u32>;
    fn tlwe_encrypt_bit(&self, level: u32, bit: bool, masks: &[u32], noise: u32, key: &[u32]) -> Vec<u32>;
    fn tlwe_encrypt_turn(&self, level: u32, turn: f64, masks: &[u32], noise: u32, key: &[u32]) -> Vec<u32>;
    fn tlwe_encrypt_message(&self, level: u32, value: u64, modulus: u64, masks: &[u32], noise: u32, key: &[u32]) -> Vec<u32>;
    fn tlwe_decrypt_bit(&self, level: u32, c: &[u32], key: &[u32]) -> bool;
    fn tlwe_decrypt_message(&self, level: u32, modulus: u64, c: &[u32], key: &[u32]) -> u64;

    fn trlwe_encrypt_f64(&self, plain: &[f64], masks: &[u32], noise: &[u32], key: &[u32]) -> Pair;
    fn trlwe_encrypt_bool(&self, plain: &[bool], masks: &[u32], noise: &[u32], key: &[u32]) -> Pair;
    fn trlwe_decrypt_bool(&self, a: &[u32], b: &[u32], key: &[u32]) -> Vec<bool>;
    fn sample_extract_index(&self, a: &[u32], b: &[u32], k: usize) -> Vec<u32>;

    fn decomposition_offset(&self) -> u32;
    fn gen_testvec(&self) -> Pair;
    fn gen_key_switching_key(&self, key_lv0: &[u32], key_lv1: &[u32], masks: &[u32], noise: &[u32]) -> Vec<u32>;

    fn encrypt_torus(&self, m: u32, masks: &[u32], noise: &[u32], key_lv1: &[u32]) -> Vec<u32>;
    fn gen_bootstrapping_key(&self, key_lv0: &[u32], key_lv1: &[u32], masks: &[u32], noise: &[u32]) -> Vec<u32>;
    fn decomposition(&self, a: &[u32], b: &[u32]) -> Vec<u32>;
    fn poly_mul_with_x_k(&self, a: &[u32], k: usize) -> Vec<u32>;
    fn external_product(&self, rows: &[u32], a: &[u32], b: &[u32]) -> Pair;
    fn cmux(&self, one: (&[u32], &[u32]), two: (&[u32], &[u32]), rows: &[u32]) -> Pair;

    fn not(&self, a: &[u32]) -> Vec<u32>;
    fn copy(&self, a: &[u32]) -> Vec<u32>;
    fn constant(&self, value: bool) -> Vec<u32>;
    fn cloud(&self, switching_key: &[u32], bootstrapping_key: &[u32]) -> Box<dyn Cloud>;
}
