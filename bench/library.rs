//! The library's routines by its C interface; a refusal stops the benchmark.

macro_rules! declare {
    ($($(#[$m:meta])* fn $f:ident($($a:ident: $t:ty),*);)*) => {
        unsafe extern "C" {
            $($(#[$m])* fn $f(n: u32, nbit: u32, bgbit: u32, l: u32, basebit: u32, t: u32, $($a: $t),*) -> u64;)*
        }
    };
}

type In = *const u32;
type Out = *mut u32;
type Bytes = *const u8;

declare! {
    #[cfg(group_product)]
    fn egl_product_poly_mul(a: In, a_len: usize, b: In, b_len: usize, out: Out, out_len: usize);
    #[cfg(group_product)]
    fn egl_product_poly_mul_add(a: In, a_len: usize, b: In, b_len: usize, out: Out, out_len: usize);
    #[cfg(group_tlwe)]
    fn egl_tlwe_encrypt_bit_lv0(bit: u32, masks: In, masks_len: usize, noise: u32, key: In, key_len: usize, out: Out, out_len: usize);
    #[cfg(group_tlwe)]
    fn egl_tlwe_decrypt_bit_lv0(c: In, c_len: usize, key: In, key_len: usize);
    #[cfg(group_trgsw)]
    fn egl_trgsw_identity_key_switching(src: In, src_len: usize, key: In, key_len: usize, out: Out, out_len: usize);
    #[cfg(group_trgsw)]
    fn egl_trgsw_external_product(rows: In, rows_len: usize, a: In, a_len: usize, b: In, b_len: usize, x: Out, x_len: usize, y: Out, y_len: usize);
    #[cfg(group_trgsw)]
    fn egl_trgsw_blind_rotate(src: In, src_len: usize, key: In, key_len: usize, x: Out, x_len: usize, y: Out, y_len: usize);
    #[cfg(group_gates)]
    fn egl_gates_nand(a: In, a_len: usize, b: In, b_len: usize, s: In, s_len: usize, k: In, k_len: usize, out: Out, out_len: usize);
    #[cfg(group_column)]
    fn egl_gate_column(kind: usize, count: usize, pairs: In, pairs_len: usize, s: In, s_len: usize, k: In, k_len: usize, out: Out, out_len: usize);
    #[cfg(group_lookup)]
    fn egl_table_testvec(modulus: u64, table: In, table_len: usize, a: Out, a_len: usize, b: Out, b_len: usize);
    #[cfg(group_lookup)]
    fn egl_trgsw_blind_rotate_with_testvec(src: In, src_len: usize, va: In, va_len: usize, vb: In, vb_len: usize, key: In, key_len: usize, x: Out, x_len: usize, y: Out, y_len: usize);
    #[cfg(group_lookup)]
    fn egl_trlwe_sample_extract_index(a: In, a_len: usize, b: In, b_len: usize, k: usize, out: Out, out_len: usize);
    #[cfg(group_lookup)]
    fn egl_lookup(modulus: u64, table: In, table_len: usize, c: In, c_len: usize, s: In, s_len: usize, k: In, k_len: usize, out: Out, out_len: usize);
    #[cfg(any(group_work, group_drift))]
    fn egl_circuit_run_encrypted(s: In, s_len: usize, k: In, k_len: usize, c: Bytes, c_len: usize, ins: In, ins_len: usize, wires: Out, wires_len: usize, out: Out, out_len: usize);
    #[cfg(group_drift)]
    fn egl_drift_run(s: In, s_len: usize, k: In, k_len: usize, key: In, key_len: usize, z: In, z_len: usize, c: Bytes, c_len: usize, ins: In, ins_len: usize, plain: Bytes, plain_len: usize, wires: Out, wires_len: usize, out: Out, out_len: usize, drifts: Out, drifts_len: usize);
}

#[cfg(group_circuit)]
unsafe extern "C" {
    // no parameters travel with a circuit
    fn egl_circuit_check(bytes: *const u8, bytes_len: usize) -> u64;
}

#[cfg(group_work)]
unsafe extern "C" {
    fn egl_circuit_work(bytes: *const u8, bytes_len: usize) -> u64;
}

#[cfg(group_bristol)]
unsafe extern "C" {
    fn egl_bristol_import(text: *const u8, text_len: usize, out: *mut u8, out_len: usize) -> u64;
}

#[cfg(group_report)]
unsafe extern "C" {
    fn egl_drift_report_of(drifts: In, drifts_len: usize, out: Out, out_len: usize) -> u64;
    fn egl_drift_report_merge(first: In, first_len: usize, second: In, second_len: usize, out: Out, out_len: usize) -> u64;
}

macro_rules! done {
    ($p:ident, $f:ident($($a:expr),*)) => {
        assert_eq!(unsafe { $f($p[0], $p[1], $p[2], $p[3], $p[4], $p[5], $($a),*) }, 0, "the library refused")
    };
}

#[cfg(group_product)]
pub fn poly_mul(p: &[u32; 6], a: &[u32], b: &[u32], out: &mut [u32]) {
    done!(p, egl_product_poly_mul(a.as_ptr(), a.len(), b.as_ptr(), b.len(), out.as_mut_ptr(), out.len()))
}

#[cfg(group_product)]
pub fn poly_mul_add(p: &[u32; 6], a: &[u32], b: &[u32], out: &mut [u32]) {
    done!(p, egl_product_poly_mul_add(a.as_ptr(), a.len(), b.as_ptr(), b.len(), out.as_mut_ptr(), out.len()))
}

#[cfg(group_tlwe)]
pub fn encrypt_bit(p: &[u32; 6], bit: u32, masks: &[u32], noise: u32, key: &[u32], out: &mut [u32]) {
    done!(p, egl_tlwe_encrypt_bit_lv0(bit, masks.as_ptr(), masks.len(), noise, key.as_ptr(), key.len(), out.as_mut_ptr(), out.len()))
}

#[cfg(group_tlwe)]
pub fn decrypt_bit(p: &[u32; 6], c: &[u32], key: &[u32]) -> bool {
    let answer = unsafe { egl_tlwe_decrypt_bit_lv0(p[0], p[1], p[2], p[3], p[4], p[5], c.as_ptr(), c.len(), key.as_ptr(), key.len()) };
    // the bit stands in the high half
    assert_eq!(answer as u32, 0, "the library refused");
    answer >> 32 != 0
}

#[cfg(group_trgsw)]
pub fn switch(p: &[u32; 6], src: &[u32], key: &[u32], out: &mut [u32]) {
    done!(p, egl_trgsw_identity_key_switching(src.as_ptr(), src.len(), key.as_ptr(), key.len(), out.as_mut_ptr(), out.len()))
}

#[cfg(group_trgsw)]
pub fn external(p: &[u32; 6], rows: &[u32], a: &[u32], b: &[u32], x: &mut [u32], y: &mut [u32]) {
    done!(p, egl_trgsw_external_product(rows.as_ptr(), rows.len(), a.as_ptr(), a.len(), b.as_ptr(), b.len(), x.as_mut_ptr(), x.len(), y.as_mut_ptr(), y.len()))
}

#[cfg(group_trgsw)]
pub fn blind_rotate(p: &[u32; 6], src: &[u32], key: &[u32], x: &mut [u32], y: &mut [u32]) {
    done!(p, egl_trgsw_blind_rotate(src.as_ptr(), src.len(), key.as_ptr(), key.len(), x.as_mut_ptr(), x.len(), y.as_mut_ptr(), y.len()))
}

#[cfg(group_gates)]
pub fn nand(p: &[u32; 6], a: &[u32], b: &[u32], s: &[u32], k: &[u32], out: &mut [u32]) {
    done!(p, egl_gates_nand(a.as_ptr(), a.len(), b.as_ptr(), b.len(), s.as_ptr(), s.len(), k.as_ptr(), k.len(), out.as_mut_ptr(), out.len()))
}

/// A column of nands: kind 5.
#[cfg(group_column)]
pub fn column_of_nands(p: &[u32; 6], pairs: &[u32], s: &[u32], k: &[u32], out: &mut [u32]) {
    let count = out.len() / (p[0] as usize + 1);
    done!(p, egl_gate_column(5, count, pairs.as_ptr(), pairs.len(), s.as_ptr(), s.len(), k.as_ptr(), k.len(), out.as_mut_ptr(), out.len()))
}

#[cfg(group_lookup)]
pub fn lookup(p: &[u32; 6], table: &[u32], c: &[u32], s: &[u32], k: &[u32], out: &mut [u32]) {
    let modulus = table.len() as u64;
    done!(p, egl_lookup(modulus, table.as_ptr(), table.len(), c.as_ptr(), c.len(), s.as_ptr(), s.len(), k.as_ptr(), k.len(), out.as_mut_ptr(), out.len()))
}

/// The same by the library's routines for each part of it: the test vector, its rotation, the extraction and the switching.
#[cfg(group_lookup)]
pub fn lookup_in_parts(p: &[u32; 6], table: &[u32], c: &[u32], s: &[u32], k: &[u32], out: &mut [u32]) {
    let length = 1 << p[1];
    let [mut va, mut vb, mut x, mut y] = [0, 1, 2, 3].map(|word| vec![word; length]);
    let mut long = vec![4; length + 1];
    done!(p, egl_table_testvec(table.len() as u64, table.as_ptr(), table.len(), va.as_mut_ptr(), length, vb.as_mut_ptr(), length));
    done!(p, egl_trgsw_blind_rotate_with_testvec(c.as_ptr(), c.len(), va.as_ptr(), length, vb.as_ptr(), length, k.as_ptr(), k.len(), x.as_mut_ptr(), length, y.as_mut_ptr(), length));
    done!(p, egl_trlwe_sample_extract_index(x.as_ptr(), length, y.as_ptr(), length, 0, long.as_mut_ptr(), length + 1));
    switch(p, &long, s, out)
}

/// The words that a run is lent: the switching key, the bootstrapping key and the inputs' ciphertexts, then the wires' and the outputs' to be written.
#[cfg(any(group_work, group_drift))]
pub struct Lent<'a> {
    pub keys: [&'a [u32]; 2],
    pub circuit: &'a [u8],
    pub ins: &'a [u32],
    pub wires: &'a mut [u32],
    pub out: &'a mut [u32],
}

#[cfg(any(group_work, group_drift))]
pub fn run_encrypted(p: &[u32; 6], Lent { keys: [s, k], circuit: c, ins, wires, out }: Lent) {
    done!(p, egl_circuit_run_encrypted(s.as_ptr(), s.len(), k.as_ptr(), k.len(), c.as_ptr(), c.len(), ins.as_ptr(), ins.len(), wires.as_mut_ptr(), wires.len(), out.as_mut_ptr(), out.len()))
}

/// Whether all are inside stands in the high half.
#[cfg(group_drift)]
pub fn run_drift(p: &[u32; 6], Lent { keys: [s, k], circuit: c, ins, wires, out }: Lent, secret: [&[u32]; 2], plain: &[u8], drifts: &mut [u32]) -> bool {
    let [key, z] = secret;
    let answer = unsafe {
        egl_drift_run(
            p[0], p[1], p[2], p[3], p[4], p[5], s.as_ptr(), s.len(), k.as_ptr(), k.len(), key.as_ptr(), key.len(), z.as_ptr(), z.len(), c.as_ptr(), c.len(),
            ins.as_ptr(), ins.len(), plain.as_ptr(), plain.len(), wires.as_mut_ptr(), wires.len(), out.as_mut_ptr(), out.len(), drifts.as_mut_ptr(), drifts.len(),
        )
    };
    assert_eq!(answer as u32, 0, "the library refused");
    answer >> 32 != 0
}

/// A refusal is an answer here: number, and above it the place.
#[cfg(group_circuit)]
pub fn check_circuit(bytes: &[u8]) -> u64 {
    unsafe { egl_circuit_check(bytes.as_ptr(), bytes.len()) }
}

/// The work of a circuit, which stands in the high half.
#[cfg(group_work)]
pub fn work(bytes: &[u8]) -> u32 {
    let answer = unsafe { egl_circuit_work(bytes.as_ptr(), bytes.len()) };
    assert_eq!(answer as u32, 0, "the library refused");
    (answer >> 32) as u32
}

/// Here too: the length above, or the number and its place.
#[cfg(group_bristol)]
pub fn import_bristol(text: &[u8], out: &mut [u8]) -> u64 {
    unsafe { egl_bristol_import(text.as_ptr(), text.len(), out.as_mut_ptr(), out.len()) }
}

#[cfg(group_report)]
pub fn report_of(drifts: &[u32], out: &mut [u32]) {
    assert_eq!(unsafe { egl_drift_report_of(drifts.as_ptr(), drifts.len(), out.as_mut_ptr(), out.len()) }, 0, "the library refused")
}

#[cfg(group_report)]
pub fn merge_reports(first: &[u32], second: &[u32], out: &mut [u32]) {
    let answer = unsafe { egl_drift_report_merge(first.as_ptr(), first.len(), second.as_ptr(), second.len(), out.as_mut_ptr(), out.len()) };
    assert_eq!(answer, 0, "the library refused")
}
