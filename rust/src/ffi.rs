//! The functions of include/egl.h that the wrapper calls, each behind a safe function on slices. The only unsafe code of the crate is here.
//!
//! Why each call is sound. A buffer crosses as a slice's own pointer and length, so it is valid and aligned for that many elements and never
//! null, an empty slice's included. What is written to comes from a `&mut` slice, which no other slice of the call overlaps. Numbers may be
//! anything: every function of the archive is proved to take any numbers and any lengths, and to touch nothing but the slices lent to
//! it. It keeps no pointer, allocates nothing, and needs less than 64 KB of stack. What is left to trust is that the declarations below say
//! what the archive's functions take; `oracle/run interface` holds them against include/egl.h, egl_c's source and the archive.
#![allow(unsafe_code)]

use crate::Params;
use std::slice;

#[rustfmt::skip]
extern "C" {
    fn egl_version() -> u32;
    fn egl_params_check(n: u32, nbit: u32, bgbit: u32, l: u32, basebit: u32, t: u32) -> u64;

    fn egl_tlwe_add_lv0(n: u32, nbit: u32, bgbit: u32, l: u32, basebit: u32, t: u32, a: *const u32, a_len: usize, b: *const u32, b_len: usize, out: *mut u32, out_len: usize) -> u64;
    fn egl_tlwe_sub_lv0(n: u32, nbit: u32, bgbit: u32, l: u32, basebit: u32, t: u32, a: *const u32, a_len: usize, b: *const u32, b_len: usize, out: *mut u32, out_len: usize) -> u64;
    fn egl_tlwe_add_mul_lv0(n: u32, nbit: u32, bgbit: u32, l: u32, basebit: u32, t: u32, a: *const u32, a_len: usize, b: *const u32, b_len: usize, multiplier: u32, out: *mut u32, out_len: usize) -> u64;
    fn egl_tlwe_sub_mul_lv0(n: u32, nbit: u32, bgbit: u32, l: u32, basebit: u32, t: u32, a: *const u32, a_len: usize, b: *const u32, b_len: usize, multiplier: u32, out: *mut u32, out_len: usize) -> u64;
    fn egl_tlwe_encrypt_bit_lv0(n: u32, nbit: u32, bgbit: u32, l: u32, basebit: u32, t: u32, bit: u32, masks: *const u32, masks_len: usize, noise: u32, key: *const u32, key_len: usize, out: *mut u32, out_len: usize) -> u64;
    fn egl_tlwe_encrypt_turn_lv0(n: u32, nbit: u32, bgbit: u32, l: u32, basebit: u32, t: u32, turn: f64, masks: *const u32, masks_len: usize, noise: u32, key: *const u32, key_len: usize, out: *mut u32, out_len: usize) -> u64;
    fn egl_tlwe_encrypt_message_lv0(n: u32, nbit: u32, bgbit: u32, l: u32, basebit: u32, t: u32, value: u64, modulus: u64, masks: *const u32, masks_len: usize, noise: u32, key: *const u32, key_len: usize, out: *mut u32, out_len: usize) -> u64;
    fn egl_tlwe_decrypt_bit_lv0(n: u32, nbit: u32, bgbit: u32, l: u32, basebit: u32, t: u32, c: *const u32, c_len: usize, key: *const u32, key_len: usize) -> u64;
    fn egl_tlwe_decrypt_message_lv0(n: u32, nbit: u32, bgbit: u32, l: u32, basebit: u32, t: u32, modulus: u64, c: *const u32, c_len: usize, key: *const u32, key_len: usize) -> u64;

    fn egl_key_gen_key_switching_key(n: u32, nbit: u32, bgbit: u32, l: u32, basebit: u32, t: u32, key_lv0: *const u32, key_lv0_len: usize, key_lv1: *const u32, key_lv1_len: usize, masks: *const u32, masks_len: usize, noise: *const u32, noise_len: usize, out: *mut u32, out_len: usize) -> u64;
    fn egl_key_drop_idle_rows(n: u32, nbit: u32, bgbit: u32, l: u32, basebit: u32, t: u32, former: *const u32, former_len: usize, out: *mut u32, out_len: usize) -> u64;
    fn egl_trgsw_gen_bootstrapping_key(n: u32, nbit: u32, bgbit: u32, l: u32, basebit: u32, t: u32, key_lv0: *const u32, key_lv0_len: usize, key_lv1: *const u32, key_lv1_len: usize, masks: *const u32, masks_len: usize, noise: *const u32, noise_len: usize, out: *mut u32, out_len: usize) -> u64;
    fn egl_key_switching_row_answer(n: u32, nbit: u32, bgbit: u32, l: u32, basebit: u32, t: u32, words: usize, i: usize, j: usize, k: usize) -> u64;
    fn egl_key_row_index(n: u32, nbit: u32, bgbit: u32, l: u32, basebit: u32, t: u32, i: usize, j: usize, k: usize) -> u64;

    fn egl_gates_nand(n: u32, nbit: u32, bgbit: u32, l: u32, basebit: u32, t: u32, a: *const u32, a_len: usize, b: *const u32, b_len: usize, ksk: *const u32, ksk_len: usize, bsk: *const u32, bsk_len: usize, out: *mut u32, out_len: usize) -> u64;
    fn egl_gates_or(n: u32, nbit: u32, bgbit: u32, l: u32, basebit: u32, t: u32, a: *const u32, a_len: usize, b: *const u32, b_len: usize, ksk: *const u32, ksk_len: usize, bsk: *const u32, bsk_len: usize, out: *mut u32, out_len: usize) -> u64;
    fn egl_gates_and(n: u32, nbit: u32, bgbit: u32, l: u32, basebit: u32, t: u32, a: *const u32, a_len: usize, b: *const u32, b_len: usize, ksk: *const u32, ksk_len: usize, bsk: *const u32, bsk_len: usize, out: *mut u32, out_len: usize) -> u64;
    fn egl_gates_nor(n: u32, nbit: u32, bgbit: u32, l: u32, basebit: u32, t: u32, a: *const u32, a_len: usize, b: *const u32, b_len: usize, ksk: *const u32, ksk_len: usize, bsk: *const u32, bsk_len: usize, out: *mut u32, out_len: usize) -> u64;
    fn egl_gates_and_ny(n: u32, nbit: u32, bgbit: u32, l: u32, basebit: u32, t: u32, a: *const u32, a_len: usize, b: *const u32, b_len: usize, ksk: *const u32, ksk_len: usize, bsk: *const u32, bsk_len: usize, out: *mut u32, out_len: usize) -> u64;
    fn egl_gates_and_yn(n: u32, nbit: u32, bgbit: u32, l: u32, basebit: u32, t: u32, a: *const u32, a_len: usize, b: *const u32, b_len: usize, ksk: *const u32, ksk_len: usize, bsk: *const u32, bsk_len: usize, out: *mut u32, out_len: usize) -> u64;
    fn egl_gates_or_ny(n: u32, nbit: u32, bgbit: u32, l: u32, basebit: u32, t: u32, a: *const u32, a_len: usize, b: *const u32, b_len: usize, ksk: *const u32, ksk_len: usize, bsk: *const u32, bsk_len: usize, out: *mut u32, out_len: usize) -> u64;
    fn egl_gates_or_yn(n: u32, nbit: u32, bgbit: u32, l: u32, basebit: u32, t: u32, a: *const u32, a_len: usize, b: *const u32, b_len: usize, ksk: *const u32, ksk_len: usize, bsk: *const u32, bsk_len: usize, out: *mut u32, out_len: usize) -> u64;
    fn egl_gates_xor(n: u32, nbit: u32, bgbit: u32, l: u32, basebit: u32, t: u32, a: *const u32, a_len: usize, b: *const u32, b_len: usize, ksk: *const u32, ksk_len: usize, bsk: *const u32, bsk_len: usize, out: *mut u32, out_len: usize) -> u64;
    fn egl_gates_xnor(n: u32, nbit: u32, bgbit: u32, l: u32, basebit: u32, t: u32, a: *const u32, a_len: usize, b: *const u32, b_len: usize, ksk: *const u32, ksk_len: usize, bsk: *const u32, bsk_len: usize, out: *mut u32, out_len: usize) -> u64;
    fn egl_gates_mux(n: u32, nbit: u32, bgbit: u32, l: u32, basebit: u32, t: u32, a: *const u32, a_len: usize, b: *const u32, b_len: usize, c: *const u32, c_len: usize, ksk: *const u32, ksk_len: usize, bsk: *const u32, bsk_len: usize, out: *mut u32, out_len: usize) -> u64;
    fn egl_gates_mux_naive(n: u32, nbit: u32, bgbit: u32, l: u32, basebit: u32, t: u32, a: *const u32, a_len: usize, b: *const u32, b_len: usize, c: *const u32, c_len: usize, ksk: *const u32, ksk_len: usize, bsk: *const u32, bsk_len: usize, out: *mut u32, out_len: usize) -> u64;
    fn egl_gates_not(n: u32, nbit: u32, bgbit: u32, l: u32, basebit: u32, t: u32, a: *const u32, a_len: usize, out: *mut u32, out_len: usize) -> u64;
    fn egl_gates_copy(n: u32, nbit: u32, bgbit: u32, l: u32, basebit: u32, t: u32, a: *const u32, a_len: usize, out: *mut u32, out_len: usize) -> u64;
    fn egl_gates_constant(n: u32, nbit: u32, bgbit: u32, l: u32, basebit: u32, t: u32, bit: u32, out: *mut u32, out_len: usize) -> u64;

    fn egl_gate_column(n: u32, nbit: u32, bgbit: u32, l: u32, basebit: u32, t: u32, kind: usize, count: usize, pairs: *const u32, pairs_len: usize, ksk: *const u32, ksk_len: usize, bsk: *const u32, bsk_len: usize, out: *mut u32, out_len: usize) -> u64;

    fn egl_circuit_check(bytes: *const u8, bytes_len: usize) -> u64;
    fn egl_circuit_work(bytes: *const u8, bytes_len: usize) -> u64;
    fn egl_circuit_run_plain(bytes: *const u8, bytes_len: usize, ins: *const u8, ins_len: usize, out: *mut u8, out_len: usize) -> u64;
    fn egl_circuit_run_encrypted(n: u32, nbit: u32, bgbit: u32, l: u32, basebit: u32, t: u32, ksk: *const u32, ksk_len: usize, bsk: *const u32, bsk_len: usize, bytes: *const u8, bytes_len: usize, ins: *const u32, ins_len: usize, wires: *mut u32, wires_len: usize, out: *mut u32, out_len: usize) -> u64;
    fn egl_circuit_run_gate(n: u32, nbit: u32, bgbit: u32, l: u32, basebit: u32, t: u32, ksk: *const u32, ksk_len: usize, bsk: *const u32, bsk_len: usize, bytes: *const u8, bytes_len: usize, g: usize, wires: *mut u32, wires_len: usize) -> u64;

    fn egl_bristol_import(text: *const u8, text_len: usize, out: *mut u8, out_len: usize) -> u64;
    fn egl_bristol_export(bytes: *const u8, bytes_len: usize, out: *mut u8, out_len: usize) -> u64;

    fn egl_drift_run(n: u32, nbit: u32, bgbit: u32, l: u32, basebit: u32, t: u32, ksk: *const u32, ksk_len: usize, bsk: *const u32, bsk_len: usize, key: *const u32, key_len: usize, z: *const u32, z_len: usize, bytes: *const u8, bytes_len: usize, ins: *const u32, ins_len: usize, plain: *const u8, plain_len: usize, wires: *mut u32, wires_len: usize, out: *mut u32, out_len: usize, drifts: *mut u32, drifts_len: usize) -> u64;
    fn egl_drift_gate(n: u32, nbit: u32, bgbit: u32, l: u32, basebit: u32, t: u32, ksk: *const u32, ksk_len: usize, bsk: *const u32, bsk_len: usize, key: *const u32, key_len: usize, z: *const u32, z_len: usize, bytes: *const u8, bytes_len: usize, g: usize, wires: *mut u32, wires_len: usize, drifts: *mut u32, drifts_len: usize) -> u64;
    fn egl_fresh_drift(n: u32, nbit: u32, bgbit: u32, l: u32, basebit: u32, t: u32, key: *const u32, key_len: usize, c: *const u32, c_len: usize, bit: u8) -> u64;
    fn egl_drift_inside(drift: u32) -> u32;

    fn egl_drift_report_empty(out: *mut u32, out_len: usize) -> u64;
    fn egl_drift_report_of(drifts: *const u32, drifts_len: usize, out: *mut u32, out_len: usize) -> u64;
    fn egl_drift_report_merge(first: *const u32, first_len: usize, second: *const u32, second_len: usize, out: *mut u32, out_len: usize) -> u64;

    fn egl_table_testvec(n: u32, nbit: u32, bgbit: u32, l: u32, basebit: u32, t: u32, modulus: u64, table: *const u32, table_len: usize, a: *mut u32, a_len: usize, b: *mut u32, b_len: usize) -> u64;
    fn egl_lookup(n: u32, nbit: u32, bgbit: u32, l: u32, basebit: u32, t: u32, modulus: u64, table: *const u32, table_len: usize, c: *const u32, c_len: usize, ksk: *const u32, ksk_len: usize, bsk: *const u32, bsk_len: usize, out: *mut u32, out_len: usize) -> u64;
    fn egl_lookup_drift(n: u32, nbit: u32, bgbit: u32, l: u32, basebit: u32, t: u32, modulus: u64, table: *const u32, table_len: usize, results: u64, value: u64, ksk: *const u32, ksk_len: usize, bsk: *const u32, bsk_len: usize, key: *const u32, key_len: usize, z: *const u32, z_len: usize, c: *const u32, c_len: usize, out: *mut u32, out_len: usize, drifts: *mut u32, drifts_len: usize) -> u64;
}

/// The two keys of a gate, as they cross.
#[derive(Clone, Copy)]
pub(crate) struct Cloud<'a> {
    pub switching: &'a [u32],
    pub bootstrapping: &'a [u32],
}

/// What a safe function takes for an argument of each sort.
macro_rules! taken {
    (words) => { &[u32] };
    (written) => { &mut [u32] };
    (bytes) => { &[u8] };
    (cloud) => { Cloud<'_> };
    (bit) => { bool };
    ($number:ident) => { $number };
}

/// Safe functions over the archive's. Each argument is named with its sort: `words` and `bytes` are slices to read, `written` a slice to write,
/// `cloud` both keys, `bit` a bit, anything else a number that crosses as it is.
macro_rules! safe {
    ($($name:ident = $c:ident($($arg:ident: $sort:ident),*);)*) => { $(
        #[allow(clippy::too_many_arguments)]
        pub(crate) fn $name(p: Params, $($arg: taken!($sort)),*) -> u64 {
            call!($c [p.n, p.nbit, p.bgbit, p.l, p.basebit, p.t] $($arg: $sort,)*)
        }
    )* };
}

/// The call itself: the arguments passed so far, then those still to be turned into what C takes.
macro_rules! call {
    ($c:ident [$($passed:expr),*] $a:ident: written, $($rest:tt)*) => { call!($c [$($passed,)* $a.as_mut_ptr(), $a.len()] $($rest)*) };
    ($c:ident [$($passed:expr),*] $a:ident: words, $($rest:tt)*) => { call!($c [$($passed,)* $a.as_ptr(), $a.len()] $($rest)*) };
    ($c:ident [$($passed:expr),*] $a:ident: bytes, $($rest:tt)*) => { call!($c [$($passed,)* $a.as_ptr(), $a.len()] $($rest)*) };
    ($c:ident [$($passed:expr),*] $a:ident: cloud, $($rest:tt)*) => {
        call!($c [$($passed,)* $a.switching.as_ptr(), $a.switching.len(), $a.bootstrapping.as_ptr(), $a.bootstrapping.len()] $($rest)*)
    };
    ($c:ident [$($passed:expr),*] $a:ident: bit, $($rest:tt)*) => { call!($c [$($passed,)* u32::from($a)] $($rest)*) };
    ($c:ident [$($passed:expr),*] $a:ident: $number:ident, $($rest:tt)*) => { call!($c [$($passed,)* $a] $($rest)*) };
    ($c:ident [$($passed:expr),*]) => {
        // SAFETY: each pointer goes with its own slice's length, written slices are `&mut`, and the function takes any such slices and any
        // numbers (see the head of this file).
        unsafe { $c($($passed),*) }
    };
}

safe! {
    params_check = egl_params_check();

    add = egl_tlwe_add_lv0(a: words, b: words, out: written);
    sub = egl_tlwe_sub_lv0(a: words, b: words, out: written);
    add_mul = egl_tlwe_add_mul_lv0(a: words, b: words, multiplier: u32, out: written);
    sub_mul = egl_tlwe_sub_mul_lv0(a: words, b: words, multiplier: u32, out: written);
    encrypt_bit = egl_tlwe_encrypt_bit_lv0(value: bit, masks: words, noise: u32, key: words, out: written);
    encrypt_turn = egl_tlwe_encrypt_turn_lv0(turn: f64, masks: words, noise: u32, key: words, out: written);
    encrypt_message = egl_tlwe_encrypt_message_lv0(value: u64, modulus: u64, masks: words, noise: u32, key: words, out: written);
    decrypt_bit = egl_tlwe_decrypt_bit_lv0(ciphertext: words, key: words);
    decrypt_message = egl_tlwe_decrypt_message_lv0(modulus: u64, ciphertext: words, key: words);

    switching_key = egl_key_gen_key_switching_key(key0: words, key1: words, masks: words, noise: words, out: written);
    drop_idle_rows = egl_key_drop_idle_rows(former: words, out: written);
    bootstrapping_key = egl_trgsw_gen_bootstrapping_key(key0: words, key1: words, masks: words, noise: words, out: written);
    switching_row_answer = egl_key_switching_row_answer(length: usize, i: usize, j: usize, k: usize);
    switching_row_index = egl_key_row_index(i: usize, j: usize, k: usize);

    nand = egl_gates_nand(a: words, b: words, key: cloud, out: written);
    or = egl_gates_or(a: words, b: words, key: cloud, out: written);
    and = egl_gates_and(a: words, b: words, key: cloud, out: written);
    nor = egl_gates_nor(a: words, b: words, key: cloud, out: written);
    and_ny = egl_gates_and_ny(a: words, b: words, key: cloud, out: written);
    and_yn = egl_gates_and_yn(a: words, b: words, key: cloud, out: written);
    or_ny = egl_gates_or_ny(a: words, b: words, key: cloud, out: written);
    or_yn = egl_gates_or_yn(a: words, b: words, key: cloud, out: written);
    xor = egl_gates_xor(a: words, b: words, key: cloud, out: written);
    xnor = egl_gates_xnor(a: words, b: words, key: cloud, out: written);
    mux = egl_gates_mux(a: words, b: words, c: words, key: cloud, out: written);
    mux_naive = egl_gates_mux_naive(a: words, b: words, c: words, key: cloud, out: written);
    not = egl_gates_not(a: words, out: written);
    copy = egl_gates_copy(a: words, out: written);
    constant = egl_gates_constant(value: bit, out: written);

    gate_column = egl_gate_column(kind: usize, count: usize, pairs: words, key: cloud, out: written);

    run_encrypted = egl_circuit_run_encrypted(key: cloud, circuit: bytes, ins: words, wires: written, out: written);
    run_gate = egl_circuit_run_gate(key: cloud, circuit: bytes, gate: usize, wires: written);

    drift_run = egl_drift_run(key: cloud, level0: words, level1: words, circuit: bytes, ins: words, plain: bytes, wires: written, out: written, drifts: written);
    drift_gate = egl_drift_gate(key: cloud, level0: words, level1: words, circuit: bytes, gate: usize, wires: written, drifts: written);
    fresh_drift = egl_fresh_drift(key: words, ciphertext: words, plain: u8);

    table_testvec = egl_table_testvec(modulus: u64, table: words, a: written, b: written);
    lookup = egl_lookup(modulus: u64, table: words, ciphertext: words, key: cloud, out: written);
    lookup_drift = egl_lookup_drift(modulus: u64, table: words, results: u64, value: u64, key: cloud, level0: words, level1: words, ciphertext: words, out: written, drifts: written);
}

/// The version of the archive's interface.
pub(crate) fn version() -> u32 {
    // SAFETY: nothing crosses but the number that is given.
    unsafe { egl_version() }
}

/// Whether a drift is below an eighth of a turn in absolute value.
pub(crate) fn drift_inside(drift: u32) -> bool {
    // SAFETY: a number alone crosses, and the function takes any.
    unsafe { egl_drift_inside(drift) != 0 }
}

/// Drifts as the words that cross, without a copy.
pub(crate) fn drift_words(drifts: &[i32]) -> &[u32] {
    // SAFETY: pointer, length and lifetime are those of one slice; `i32` and `u32` have one size and one alignment, and any bits are a value of either.
    unsafe { slice::from_raw_parts(drifts.as_ptr().cast(), drifts.len()) }
}

pub(crate) fn drift_report_empty(out: &mut [u32]) -> u64 {
    // SAFETY: pointer and length are those of one slice, which is `&mut`.
    unsafe { egl_drift_report_empty(out.as_mut_ptr(), out.len()) }
}

pub(crate) fn drift_report_of(drifts: &[u32], out: &mut [u32]) -> u64 {
    // SAFETY: each pointer and length are those of one slice, and `out` is `&mut`, so the other does not overlap it.
    unsafe { egl_drift_report_of(drifts.as_ptr(), drifts.len(), out.as_mut_ptr(), out.len()) }
}

pub(crate) fn drift_report_merge(first: &[u32], second: &[u32], out: &mut [u32]) -> u64 {
    // SAFETY: each pointer and length are those of one slice, and `out` is `&mut`, so the others do not overlap it.
    unsafe { egl_drift_report_merge(first.as_ptr(), first.len(), second.as_ptr(), second.len(), out.as_mut_ptr(), out.len()) }
}

pub(crate) fn circuit_check(bytes: &[u8]) -> u64 {
    // SAFETY: pointer and length are those of one slice, which is only read.
    unsafe { egl_circuit_check(bytes.as_ptr(), bytes.len()) }
}

pub(crate) fn circuit_work(bytes: &[u8]) -> u64 {
    // SAFETY: pointer and length are those of one slice, which is only read.
    unsafe { egl_circuit_work(bytes.as_ptr(), bytes.len()) }
}

pub(crate) fn circuit_run_plain(bytes: &[u8], ins: &[u8], out: &mut [u8]) -> u64 {
    // SAFETY: each pointer and length are those of one slice, and `out` is `&mut`, so the others do not overlap it.
    unsafe { egl_circuit_run_plain(bytes.as_ptr(), bytes.len(), ins.as_ptr(), ins.len(), out.as_mut_ptr(), out.len()) }
}

pub(crate) fn bristol_import(text: &[u8], out: &mut [u8]) -> u64 {
    // SAFETY: each pointer and length are those of one slice, and `out` is `&mut`, so the other does not overlap it.
    unsafe { egl_bristol_import(text.as_ptr(), text.len(), out.as_mut_ptr(), out.len()) }
}

pub(crate) fn bristol_export(bytes: &[u8], out: &mut [u8]) -> u64 {
    // SAFETY: each pointer and length are those of one slice, and `out` is `&mut`, so the other does not overlap it.
    unsafe { egl_bristol_export(bytes.as_ptr(), bytes.len(), out.as_mut_ptr(), out.len()) }
}
