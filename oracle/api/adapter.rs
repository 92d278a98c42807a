//! Copied into each generated copy of the original, beside its modules: hands the
//! original's routines out as slices and vectors, and lends its stand-ins their randomness.

use crate::fft::{FFTProcessor, FFT_PLAN};
use crate::{gates, key, params, tlwe, trgsw, trlwe, utils};
use oracle_api::{Cloud, Original, Pair};

const N: usize = params::trgsw_lv1::N;
const L: usize = params::trgsw_lv1::L;

fn array<T: Copy + std::fmt::Debug, const K: usize>(s: &[T]) -> [T; K] {
    s.try_into().expect("a slice of the stated length")
}

/// Lends masks and noise to `f`, which must use all of them.
fn lent<T>(masks: &[u32], noise: &[u32], f: impl FnOnce() -> T) -> T {
    rand::lend(masks);
    rand_distr::lend(noise);
    let out = f();
    assert!(rand::left() == 0 && rand_distr::left() == 0, "lent randomness left over");
    out
}

fn with_plan<T>(f: impl FnOnce(&mut crate::fft::FFTPlan) -> T) -> T {
    FFT_PLAN.with(|plan| f(&mut plan.borrow_mut()))
}

fn pair(c: &trlwe::TRLWELv1) -> Pair {
    (c.a.to_vec(), c.b.to_vec())
}

fn trlwe_of(a: &[u32], b: &[u32]) -> trlwe::TRLWELv1 {
    trlwe::TRLWELv1 { a: array(a), b: array(b) }
}

fn rows_of(rows: &[u32]) -> Box<trgsw::TRGSWLv1> {
    assert!(rows.len() == 2 * L * 2 * N);
    let mut out = Box::new(trgsw::TRGSWLv1::new());
    for (t, row) in out.trlwe.iter_mut().zip(rows.chunks(2 * N)) {
        *t = trlwe_of(&row[..N], &row[N..]);
    }
    out
}

fn key_of(key_lv0: &[u32], key_lv1: &[u32]) -> key::SecretKey {
    key::SecretKey { key_lv0: array(key_lv0), key_lv1: array(key_lv1) }
}

/// A cloud key without its two vectors, for the routines that read only the offset.
fn bare() -> key::CloudKey {
    key::CloudKey {
        decomposition_offset: key::gen_decomposition_offset(),
        blind_rotate_testvec: key::gen_testvec(),
        key_switching_key: Vec::new(),
        bootstrapping_key: Vec::new(),
    }
}

// The sums and messages of one level: the original has them for level 0, and its text is
// compiled a second time (module tlwe_one) with level 1's length.
macro_rules! level {
    ($name:ident, $tlwe:ident) => {
        mod $name {
            use super::{array, lent};
            use crate::$tlwe::{AddMul, SubMul, TLWELv0};

            fn of(p: &[u32]) -> TLWELv0 {
                TLWELv0 { p: array(p) }
            }
            pub fn add(a: &[u32], b: &[u32]) -> Vec<u32> {
                (&of(a) + &of(b)).p.to_vec()
            }
            pub fn sub(a: &[u32], b: &[u32]) -> Vec<u32> {
                (&of(a) - &of(b)).p.to_vec()
            }
            pub fn neg(a: &[u32]) -> Vec<u32> {
                (-of(a)).p.to_vec()
            }
            pub fn add_mul(a: &[u32], b: &[u32], m: u32) -> Vec<u32> {
                (&of(a)).add_mul(&of(b), m).p.to_vec()
            }
            pub fn sub_mul(a: &[u32], b: &[u32], m: u32) -> Vec<u32> {
                (&of(a)).sub_mul(&of(b), m).p.to_vec()
            }
            pub fn encrypt_turn(turn: f64, masks: &[u32], noise: u32, key: &[u32]) -> Vec<u32> {
                lent(masks, &[noise], || TLWELv0::encrypt_f64(turn, 0.0, &array(key)).p.to_vec())
            }
            pub fn encrypt_bit(bit: bool, masks: &[u32], noise: u32, key: &[u32]) -> Vec<u32> {
                lent(masks, &[noise], || TLWELv0::encrypt_bool(bit, 0.0, &array(key)).p.to_vec())
            }
            pub fn encrypt_message(value: u64, modulus: u64, masks: &[u32], noise: u32, key: &[u32]) -> Vec<u32> {
                lent(masks, &[noise], || {
                    TLWELv0::encrypt_lwe_message(value as usize, modulus as usize, 0.0, &array(key)).p.to_vec()
                })
            }
            pub fn decrypt_bit(c: &[u32], key: &[u32]) -> bool {
                of(c).decrypt_bool(&array(key))
            }
            pub fn decrypt_message(modulus: u64, c: &[u32], key: &[u32]) -> u64 {
                of(c).decrypt_lwe_message(modulus as usize, &array(key)) as u64
            }
        }
    };
}
level!(zero, tlwe);
level!(one, tlwe_one);

fn lv1(p: &[u32]) -> tlwe::TLWELv1 {
    tlwe::TLWELv1 { p: array(p) }
}

struct Keys(key::CloudKey);

impl Cloud for Keys {
    fn blind_rotate(&self, src: &[u32]) -> Pair {
        pair(&trgsw::blind_rotate(&tlwe::TLWELv0 { p: array(src) }, &self.0))
    }

    fn blind_rotate_with_testvec(&self, src: &[u32], a: &[u32], b: &[u32]) -> Pair {
        pair(&trgsw::blind_rotate_with_testvec(&tlwe::TLWELv0 { p: array(src) }, &trlwe_of(a, b), &self.0))
    }

    fn identity_key_switching(&self, src: &[u32]) -> Vec<u32> {
        trgsw::identity_key_switching(&lv1(src), &self.0.key_switching_key).p.to_vec()
    }

    fn gate(&self, name: &str, a: &[u32], b: &[u32], c: &[u32]) -> Vec<u32> {
        let x = tlwe::TLWELv0 { p: array(a) };
        let y = tlwe::TLWELv0 { p: array(b) };
        let k = &self.0;
        let out = match name {
            "nand" => gates::nand(&x, &y, k),
            "or" => gates::or(&x, &y, k),
            "and" => gates::and(&x, &y, k),
            "nor" => gates::nor(&x, &y, k),
            "and_ny" => gates::and_ny(&x, &y, k),
            "and_yn" => gates::and_yn(&x, &y, k),
            "or_ny" => gates::or_ny(&x, &y, k),
            "or_yn" => gates::or_yn(&x, &y, k),
            "xor" => gates::xor(&x, &y, k),
            "xnor" => gates::xnor(&x, &y, k),
            "mux" => gates::mux(&x, &y, &tlwe::TLWELv0 { p: array(c) }, k),
            "mux_naive" => gates::mux_naive(&x, &y, &tlwe::TLWELv0 { p: array(c) }, k),
            _ => panic!("no gate {name}"),
        };
        out.p.to_vec()
    }

    fn batch(&self, name: &str, pairs: &[u32]) -> Vec<u32> {
        let words = params::tlwe_lv0::N + 1;
        let cipher = |p: &[u32]| tlwe::TLWELv0 { p: array(p) };
        let pairs: Vec<_> = pairs.chunks(2 * words).map(|pair| (cipher(&pair[..words]), cipher(&pair[words..]))).collect();
        let (k, pool) = (&self.0, crate::parallel::default_railgun());
        let out = match name {
            "nand" => gates::batch_nand_with_railgun(&pairs, k, pool),
            "and" => gates::batch_and_with_railgun(&pairs, k, pool),
            "or" => gates::batch_or_with_railgun(&pairs, k, pool),
            "xor" => gates::batch_xor_with_railgun(&pairs, k, pool),
            "nor" => gates::batch_nor_with_railgun(&pairs, k, pool),
            "xnor" => gates::batch_xnor_with_railgun(&pairs, k, pool),
            _ => panic!("no batch of {name}"),
        };
        out.iter().flat_map(|c| c.p).collect()
    }
}

/// The original for the set that this copy was made for.
pub struct Set;

pub static SET: Set = Set;

macro_rules! at {
    ($level:expr, $f:ident($($a:expr),*)) => {
        if $level == 0 { zero::$f($($a),*) } else { one::$f($($a),*) }
    };
}

impl Original for Set {
    fn params(&self) -> [u32; 6] {
        use params::trgsw_lv1::*;
        [params::tlwe_lv0::N as u32, NBIT as u32, BGBIT, L as u32, BASEBIT as u32, IKS_T as u32]
    }

    fn published(&self) -> Vec<(&'static str, [u32; 6])> {
        use params::*;
        let six = |p: SecurityParams| {
            let g = p.trgsw_lv1;
            [p.tlwe_lv0.n as u32, g.nbit as u32, g.bgbit, g.l as u32, g.basebit as u32, g.iks_t as u32]
        };
        vec![
            ("80", six(SECURITY_80_BIT)),
            ("110", six(SECURITY_110_BIT)),
            ("uint1", six(SECURITY_UINT1)),
            ("uint2", six(SECURITY_UINT2)),
            ("uint3", six(SECURITY_UINT3)),
            ("uint4", six(SECURITY_UINT4)),
            ("uint5", six(SECURITY_UINT5)),
            ("uint6", six(SECURITY_UINT6)),
            ("uint7", six(SECURITY_UINT7)),
            ("uint8", six(SECURITY_UINT8)),
        ]
    }

    fn f64_to_torus(&self, d: f64) -> u32 {
        utils::f64_to_torus(d)
    }
    fn torus_to_f64(&self, t: u32) -> f64 {
        utils::torus_to_f64(t)
    }
    fn f64_to_torus_vec(&self, d: &[f64]) -> Vec<u32> {
        utils::f64_to_torus_vec(d)
    }

    fn tlwe_add(&self, level: u32, a: &[u32], b: &[u32]) -> Vec<u32> {
        at!(level, add(a, b))
    }
    fn tlwe_sub(&self, level: u32, a: &[u32], b: &[u32]) -> Vec<u32> {
        at!(level, sub(a, b))
    }
    fn tlwe_neg(&self, level: u32, a: &[u32]) -> Vec<u32> {
        at!(level, neg(a))
    }
    fn tlwe_add_mul(&self, level: u32, a: &[u32], b: &[u32], multiplier: u32) -> Vec<u32> {
        at!(level, add_mul(a, b, multiplier))
    }
    fn tlwe_sub_mul(&self, level: u32, a: &[u32], b: &[u32], multiplier: u32) -> Vec<u32> {
        at!(level, sub_mul(a, b, multiplier))
    }

    // At level 1 bits and turns go through the original's own level-1 methods.
    fn tlwe_encrypt_bit(&self, level: u32, bit: bool, masks: &[u32], noise: u32, key: &[u32]) -> Vec<u32> {
        if level == 0 {
            return zero::encrypt_bit(bit, masks, noise, key);
        }
        lent(masks, &[noise], || tlwe::TLWELv1::encrypt_bool(bit, 0.0, &array(key)).p.to_vec())
    }
    fn tlwe_encrypt_turn(&self, level: u32, turn: f64, masks: &[u32], noise: u32, key: &[u32]) -> Vec<u32> {
        if level == 0 {
            return zero::encrypt_turn(turn, masks, noise, key);
        }
        lent(masks, &[noise], || tlwe::TLWELv1::encrypt_f64(turn, 0.0, &array(key)).p.to_vec())
    }
    fn tlwe_encrypt_message(&self, level: u32, value: u64, modulus: u64, masks: &[u32], noise: u32, key: &[u32]) -> Vec<u32> {
        at!(level, encrypt_message(value, modulus, masks, noise, key))
    }
    fn tlwe_decrypt_bit(&self, level: u32, c: &[u32], key: &[u32]) -> bool {
        if level == 0 {
            zero::decrypt_bit(c, key)
        } else {
            lv1(c).decrypt_bool(&array(key))
        }
    }
    fn tlwe_decrypt_message(&self, level: u32, modulus: u64, c: &[u32], key: &[u32]) -> u64 {
        at!(level, decrypt_message(modulus, c, key))
    }

    fn trlwe_encrypt_f64(&self, plain: &[f64], masks: &[u32], noise: &[u32], key: &[u32]) -> Pair {
        lent(masks, noise, || with_plan(|p| pair(&trlwe::TRLWELv1::encrypt_f64(plain, 0.0, &array(key), p))))
    }
    fn trlwe_encrypt_bool(&self, plain: &[bool], masks: &[u32], noise: &[u32], key: &[u32]) -> Pair {
        lent(masks, noise, || with_plan(|p| pair(&trlwe::TRLWELv1::encrypt_bool(plain, 0.0, &array(key), p))))
    }
    fn trlwe_decrypt_bool(&self, a: &[u32], b: &[u32], key: &[u32]) -> Vec<bool> {
        with_plan(|p| trlwe_of(a, b).decrypt_bool(&array(key), p))
    }
    fn sample_extract_index(&self, a: &[u32], b: &[u32], k: usize) -> Vec<u32> {
        trlwe::sample_extract_index(&trlwe_of(a, b), k).p.to_vec()
    }

    fn decomposition_offset(&self) -> u32 {
        key::gen_decomposition_offset()
    }
    fn gen_testvec(&self) -> Pair {
        pair(&key::gen_testvec())
    }
    fn gen_key_switching_key(&self, key_lv0: &[u32], key_lv1: &[u32], masks: &[u32], noise: &[u32]) -> Vec<u32> {
        let made = lent(masks, noise, || key::gen_key_switching_key(&key_of(key_lv0, key_lv1)));
        made.iter().flat_map(|row| row.p).collect()
    }

    fn encrypt_torus(&self, m: u32, masks: &[u32], noise: &[u32], key_lv1: &[u32]) -> Vec<u32> {
        let made = lent(masks, noise, || {
            with_plan(|p| Box::new(trgsw::TRGSWLv1::encrypt_torus(m, 0.0, &array(key_lv1), p)))
        });
        made.trlwe.iter().flat_map(|t| t.a.into_iter().chain(t.b)).collect()
    }
    /// The original hands the key out transformed; a row is turned back, which is exact.
    fn gen_bootstrapping_key(&self, key_lv0: &[u32], key_lv1: &[u32], masks: &[u32], noise: &[u32]) -> Vec<u32> {
        let made = lent(masks, noise, || key::gen_bootstrapping_key(&key_of(key_lv0, key_lv1)));
        let mut out = Vec::new();
        for t in made.iter().flat_map(|g| g.trlwe_fft.iter()) {
            with_plan(|p| {
                out.extend(p.processor.fft(&t.a));
                out.extend(p.processor.fft(&t.b));
            });
        }
        out
    }
    fn decomposition(&self, a: &[u32], b: &[u32]) -> Vec<u32> {
        trgsw::decomposition(&trlwe_of(a, b), &bare()).concat()
    }
    fn poly_mul_with_x_k(&self, a: &[u32], k: usize) -> Vec<u32> {
        trgsw::poly_mul_with_x_k(&array(a), k).to_vec()
    }
    fn external_product(&self, rows: &[u32], a: &[u32], b: &[u32]) -> Pair {
        with_plan(|p| {
            let turned = trgsw::TRGSWLv1FFT::new(&rows_of(rows), p);
            pair(&trgsw::external_product_with_fft(&turned, &trlwe_of(a, b), &bare(), p))
        })
    }
    fn cmux(&self, one: (&[u32], &[u32]), two: (&[u32], &[u32]), rows: &[u32]) -> Pair {
        with_plan(|p| {
            let turned = trgsw::TRGSWLv1FFT::new(&rows_of(rows), p);
            pair(&trgsw::cmux(&trlwe_of(one.0, one.1), &trlwe_of(two.0, two.1), &turned, &bare(), p))
        })
    }

    fn not(&self, a: &[u32]) -> Vec<u32> {
        gates::not(&tlwe::TLWELv0 { p: array(a) }).p.to_vec()
    }
    fn copy(&self, a: &[u32]) -> Vec<u32> {
        gates::copy(&tlwe::TLWELv0 { p: array(a) }).p.to_vec()
    }
    fn constant(&self, value: bool) -> Vec<u32> {
        gates::constant(value).p.to_vec()
    }
    fn cloud(&self, switching_key: &[u32], bootstrapping_key: &[u32]) -> Box<dyn Cloud> {
        let mut keys = bare();
        for row in switching_key.chunks(params::tlwe_lv0::N + 1) {
            keys.key_switching_key.push(tlwe::TLWELv0 { p: array(row) });
        }
        for rows in bootstrapping_key.chunks(2 * L * 2 * N) {
            with_plan(|p| keys.bootstrapping_key.push(trgsw::TRGSWLv1FFT::new(&rows_of(rows), p)));
        }
        Box::new(Keys(keys))
    }
}
