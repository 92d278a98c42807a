//! The proved library beside plain Rust and a transform in doubles, as ratios in one run.

#[cfg(group_bristol)]
mod bristol;
#[cfg(group_column)]
mod column;
mod library;
#[cfg(group_lookup)]
mod lookup;
mod measure;
mod plain;
#[cfg(group_report)]
mod report;
mod transform;
#[cfg(group_work)]
mod work;

use measure::{table, way};
use std::hint::black_box;

/// The published 128-bit set: n, NBIT, BGBIT, L, BASEBIT, T.
const SET: [u32; 6] = [700, 10, 6, 3, 2, 9];
const N: usize = 1024;
/// The rows of its switching key, n + 1 words each.
const ROWS: usize = 3 * 9 * N;

/// Words to compute with: splitmix64.
fn words(len: usize, seed: u64) -> Vec<u32> {
    let mut state = seed;
    let mut next = || {
        state = state.wrapping_add(0x9E37_79B9_7F4A_7C15);
        let z = (state ^ (state >> 30)).wrapping_mul(0xBF58_476D_1CE4_E5B9);
        let z = (z ^ (z >> 27)).wrapping_mul(0x94D0_49BB_1331_11EB);
        (z ^ (z >> 31)) as u32
    };
    (0..len).map(|_| next()).collect()
}

#[cfg(group_product)]
fn products() {
    let (a, b) = (words(N, 1), words(N, 2));
    let digits: Vec<u32> = a.iter().map(|x| (x & 63).wrapping_sub(32)).collect();
    let turn = transform::Transform::new(N);
    let (mut o1, mut o2, mut o3, mut o4, mut o5) = (vec![0; N], vec![0; N], vec![0; N], vec![0; N], vec![0; N]);
    library::poly_mul(&SET, &a, &b, &mut o1);
    plain::product_doubled(&a, &b, &mut o2);
    assert!(o1 == o2, "the two products differ");
    turn.product(&digits, &b, &mut o4);
    plain::product_doubled(&digits, &b, &mut o2);
    assert!(o4 == o2, "the transform's product differs on digits");
    let ways = vec![
        way("library, poly_mul", || library::poly_mul(black_box(&SET), black_box(&a), black_box(&b), &mut o1)),
        way("library, poly_mul_add", || library::poly_mul_add(black_box(&SET), black_box(&a), black_box(&b), &mut o5)),
        way("plain Rust, doubled row", || plain::product_doubled(black_box(&a), black_box(&b), &mut o2)),
        way("plain Rust, two loops", || plain::product_two_loops(black_box(&a), black_box(&b), &mut o3)),
        way("transform in doubles", || turn.product(black_box(&digits), black_box(&b), &mut o4)),
    ];
    table("Product at N 1,024; bar: library at most 1.05 of plain Rust", ways, 2000, "plain Rust, doubled row");
}

#[cfg(group_tlwe)]
fn ciphertexts() {
    let p = [1100, 10, 6, 3, 2, 9];
    let key: Vec<u32> = words(1100, 3).iter().map(|x| x >> 31).collect();
    let masks = words(1100, 4);
    let (mut o1, mut o2, mut o3) = (vec![0; 1101], vec![0; 1101], vec![0; 1101]);
    library::encrypt_bit(&p, 1, &masks, 5, &key, &mut o1);
    plain::encrypt(1 << 29, &masks, 5, &key, &mut o2);
    assert!(o1 == o2, "the two ciphertexts differ");
    let c = o1.clone();
    // many calls a turn: one is too short for the clock
    const CALLS: usize = 200;
    let ways = vec![
        way("library, encrypt a bit, 200 calls", || (0..CALLS).for_each(|_| library::encrypt_bit(black_box(&p), 1, black_box(&masks), 5, black_box(&key), &mut o1))),
        way("plain Rust", || (0..CALLS).for_each(|_| plain::encrypt(black_box(1 << 29), black_box(&masks), 5, black_box(&key), black_box(&mut o2)))),
        way("plain Rust with the checks", || {
            (0..CALLS).for_each(|_| assert!(plain::encrypt_checked(black_box(1 << 29), black_box(&masks), 5, black_box(&key), black_box(&mut o3))))
        }),
    ];
    table("Encryption at n 1,100; bar: library at most 1.2 of plain Rust", ways, 1000, "plain Rust");
    let ways = vec![
        way("library, decrypt a bit, 200 calls", || (0..CALLS).for_each(|_| assert!(library::decrypt_bit(black_box(&p), black_box(&c), black_box(&key))))),
        way("plain Rust", || (0..CALLS).for_each(|_| assert!(plain::decrypt(black_box(&c), black_box(&key))))),
        way("plain Rust with the checks", || {
            (0..CALLS).for_each(|_| assert!(plain::decrypt_checked(black_box(&c), black_box(&key)) == Some(true)))
        }),
    ];
    table("Decryption at n 1,100; bar: library at most 1.2 of plain Rust", ways, 1000, "plain Rust");
}

#[cfg(group_trgsw)]
fn rotations() {
    let n = SET[0] as usize;
    let (rows, a, b) = (words(12 * N, 6), words(N, 7), words(N, 8));
    let (key, src) = (words(n * 12 * N, 9), words(n + 1, 10));
    let (switching, long) = (words(ROWS * (n + 1), 11), words(N + 1, 12));
    let (mut x, mut y, mut o) = (vec![0; N], vec![0; N], vec![0; N]);
    let (mut s1, mut s2) = (vec![0; n + 1], vec![0; n + 1]);
    library::switch(&SET, &long, &switching, &mut s1);
    plain::switch(&long, &switching, n, SET[4], SET[5], &mut s2);
    assert!(s1 == s2, "the two switchings differ");
    let ways = vec![
        way("library, key switching", || library::switch(black_box(&SET), black_box(&long), black_box(&switching), &mut s1)),
        way("plain Rust", || plain::switch(black_box(&long), black_box(&switching), n, SET[4], SET[5], black_box(&mut s2))),
    ];
    table("Key switching at the 128-bit set; bar: library at most 1.2 of plain Rust", ways, 40, "plain Rust");

    let ways = vec![
        way("twelve products", || (0..12).for_each(|_| library::poly_mul_add(black_box(&SET), black_box(&a), black_box(&b), &mut o))),
        way("external product", || library::external(black_box(&SET), black_box(&rows), black_box(&a), black_box(&b), &mut x, &mut y)),
    ];
    table("External product at the 128-bit set", ways, 200, "twelve products");

    let (mut x, mut y, mut o) = (vec![0; N], vec![0; N], vec![0; N]);
    let ways = vec![
        way("8,400 products", || (0..8400).for_each(|_| library::poly_mul_add(black_box(&SET), black_box(&a), black_box(&b), &mut o))),
        way("blind rotation", || library::blind_rotate(black_box(&SET), black_box(&src), black_box(&key), &mut x, &mut y)),
    ];
    table("Blind rotation at the 128-bit set; bar: at most 1.15 of its products", ways, 5, "8,400 products");
}

#[cfg(group_gates)]
fn gate() {
    let n = SET[0] as usize;
    let (a, b) = (words(N, 7), words(N, 8));
    let (key, switching, long) = (words(n * 12 * N, 9), words(ROWS * (n + 1), 11), words(N + 1, 12));
    let (c, d) = (words(n + 1, 13), words(n + 1, 14));
    let digits: Vec<u32> = a.iter().map(|x| (x & 63).wrapping_sub(32)).collect();
    let turn = transform::Transform::new(N);
    let (mut o, mut o2, mut s, mut out) = (vec![0; N], vec![0; N], vec![0; n + 1], vec![0; n + 1]);
    let ways = vec![
        way("8,400 products and a switching", || {
            (0..8400).for_each(|_| library::poly_mul_add(black_box(&SET), black_box(&a), black_box(&b), &mut o));
            library::switch(black_box(&SET), black_box(&long), black_box(&switching), &mut s);
        }),
        way("nand", || library::nand(black_box(&SET), black_box(&c), black_box(&d), black_box(&switching), black_box(&key), &mut out)),
        way("8,400 products by a transform in doubles", || (0..8400).for_each(|_| turn.product(black_box(&digits), black_box(&b), &mut o2))),
    ];
    table("A gate at the 128-bit set; bar: at most 1.2 of its products and its switching", ways, 5, "8,400 products and a switching");
}

/// A valid circuit of the largest size: 256 inputs, 1,024 gates of all kinds, 64 outputs.
#[cfg(group_circuit)]
fn largest() -> Vec<u8> {
    let mut draw = words(4 * 1024 + 64, 15).into_iter();
    let mut below = |bound: usize| draw.next().expect("words enough") as usize % bound;
    let mut fields = vec![1, 256, 1024, 64];
    for g in 0..1024 {
        let kind = below(14);
        fields.push(kind);
        fields.extend((0..3).map(|i| if i < plain::NEEDS[kind] { below(256 + g) } else { 0 }));
    }
    fields.extend((0..64).map(|_| below(256 + 1024)));
    let mut bytes = b"EGL".to_vec();
    bytes.extend(fields.iter().flat_map(|&x| (x as u16).to_le_bytes()));
    bytes
}

#[cfg(group_circuit)]
fn circuits() {
    let bytes = largest();
    assert!(library::check_circuit(&bytes) == 0, "the library refused");
    assert!(plain::check_circuit(&bytes) == 0, "the plain reader refused");
    // both must find the same fault at the same place
    for at in 0..bytes.len() {
        let mut other = bytes.clone();
        other[at] ^= 0x85;
        assert!(library::check_circuit(&other) == plain::check_circuit(&other), "the two readers differ on a change at {at}");
    }
    let ways = vec![
        way("library, circuit_check", || assert!(library::check_circuit(black_box(&bytes)) == 0)),
        way("plain Rust", || assert!(plain::check_circuit(black_box(&bytes)) == 0)),
    ];
    table("Reading the largest circuit (256, 1,024, 64); bar: library at most 1.2 of plain Rust", ways, 5000, "plain Rust");
}

/// Three inputs, a not of the first, and a mux by it of the second and the third: two rotations.
#[cfg(group_drift)]
const NOT_MUX: [u8; 29] = [b'E', b'G', b'L', 1, 0, 3, 0, 2, 0, 1, 0, 2, 0, 0, 0, 0, 0, 0, 0, 13, 0, 3, 0, 1, 0, 2, 0, 4, 0];

#[cfg(group_drift)]
fn drifts() {
    let n = SET[0] as usize;
    // The time does not depend on what keys and ciphertexts hold.
    let (key, switching, ins) = (words(n * 12 * N, 9), words(ROWS * (n + 1), 11), words(3 * (n + 1), 13));
    let bits = |len: usize, seed: u64| -> Vec<u32> { words(len, seed).iter().map(|x| x >> 31).collect() };
    let (level0, level1) = (bits(n, 16), bits(N, 17));
    let (mut w1, mut w2, mut o1, mut o2, mut drifts) = (vec![0; 5 * (n + 1)], vec![1; 5 * (n + 1)], vec![0; n + 1], vec![1; n + 1], vec![0; 5]);
    let keys = [&switching[..], &key[..]];
    fn lent<'a>(keys: [&'a [u32]; 2], ins: &'a [u32], wires: &'a mut [u32], out: &'a mut [u32]) -> library::Lent<'a> {
        library::Lent { keys: black_box(keys), circuit: black_box(&NOT_MUX), ins: black_box(ins), wires, out }
    }
    library::run_encrypted(&SET, lent(keys, &ins, &mut w1, &mut o1));
    library::run_drift(&SET, lent(keys, &ins, &mut w2, &mut o2), [&level0, &level1], &[1, 0, 1], &mut drifts);
    assert!(w1 == w2 && o1 == o2, "the two runs differ");
    let ways = vec![
        way("encrypted run, a not and a mux", || library::run_encrypted(black_box(&SET), lent(keys, &ins, &mut w1, &mut o1))),
        way("drift run of the same", || {
            black_box(library::run_drift(black_box(&SET), lent(keys, &ins, &mut w2, &mut o2), [&level0, &level1], black_box(&[1, 0, 1]), &mut drifts));
        }),
    ];
    table("A drift run at the 128-bit set; bar: at most 1.05 of the encrypted run", ways, 5, "encrypted run, a not and a mux");
}

fn main() {
    // a part may be named on the command line, so that one table can be had alone
    let asked: Vec<String> = std::env::args().skip(1).collect();
    let wanted = |part: &str| asked.is_empty() || asked.iter().any(|a| a == part);
    #[cfg(group_product)]
    if wanted("product") {
        products();
    }
    #[cfg(group_tlwe)]
    if wanted("tlwe") {
        ciphertexts();
    }
    #[cfg(group_trgsw)]
    if wanted("trgsw") {
        rotations();
    }
    #[cfg(group_gates)]
    if wanted("gates") {
        gate();
    }
    #[cfg(group_column)]
    if wanted("column") {
        column::run();
    }
    #[cfg(group_lookup)]
    if wanted("lookup") {
        lookup::run();
    }
    #[cfg(group_circuit)]
    if wanted("circuit") {
        circuits();
    }
    #[cfg(group_work)]
    if wanted("work") {
        work::run();
    }
    #[cfg(group_bristol)]
    if wanted("bristol") {
        bristol::run();
    }
    #[cfg(group_drift)]
    if wanted("drift") {
        drifts();
    }
    #[cfg(group_report)]
    if wanted("report") {
        report::run();
    }
}
