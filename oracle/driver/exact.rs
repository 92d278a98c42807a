//! The original's steps with the exact product in place of its transform, written
//! independently of the library: what the external product, the blind rotation and the
//! gates must give word for word.

use crate::sizes::Sizes;
use std::cell::Cell;

thread_local! {
    /// The blind rotations that this thread has performed.
    static ROTATIONS: Cell<usize> = const { Cell::new(0) };
}

/// What a function gives, and how many blind rotations it performed.
pub fn counting<T>(f: impl FnOnce() -> T) -> (T, usize) {
    let before = ROTATIONS.get();
    let given = f();
    (given, ROTATIONS.get() - before)
}

pub type Pair = (Vec<u32>, Vec<u32>);

/// The word of a double, from its bits: the fraction of its size, cut to steps of 2^-32.
pub fn torus(bits: u64) -> u32 {
    let exponent = (bits >> 52 & 0x7FF) as i32;
    if exponent == 0x7FF || exponent == 0 {
        return 0; // not finite, or below every step
    }
    let mantissa = bits & ((1 << 52) - 1) | 1 << 52;
    // The double is mantissa * 2^(exponent - 1075), so its size in steps is shifted by 32 more.
    let shift = exponent - 1075 + 32;
    let steps = match shift {
        32.. => 0,
        0..=31 => (mantissa as u32) << shift,
        -63..=-1 => (mantissa >> -shift) as u32,
        _ => 0,
    };
    if bits >> 63 == 1 { steps.wrapping_neg() } else { steps }
}

/// a times b modulo X^N + 1 and 2^32, term by term.
pub fn product(a: &[u32], b: &[u32]) -> Vec<u32> {
    let n = a.len();
    let mut out = vec![0u32; n];
    for (i, &x) in a.iter().enumerate().filter(|(_, &x)| x != 0) {
        let (low, high) = b.split_at(n - i);
        for (o, &y) in out[i..].iter_mut().zip(low) {
            *o = o.wrapping_add(x.wrapping_mul(y));
        }
        for (o, &y) in out[..i].iter_mut().zip(high) {
            *o = o.wrapping_sub(x.wrapping_mul(y));
        }
    }
    out
}

fn plus(a: &[u32], b: &[u32]) -> Vec<u32> {
    a.iter().zip(b).map(|(x, y)| x.wrapping_add(*y)).collect()
}

fn minus(a: &[u32], b: &[u32]) -> Vec<u32> {
    a.iter().zip(b).map(|(x, y)| x.wrapping_sub(*y)).collect()
}

pub fn offset(p: &[u32; 6]) -> u32 {
    (0..p[3]).fold(0u32, |sum, i| sum.wrapping_add(1 << (31 - i * p[2])))
}

/// Digit polynomial i (from 0) of a.
fn digits(p: &[u32; 6], a: &[u32], i: u32) -> Vec<u32> {
    let (bgbit, add) = (p[2], offset(p));
    let field = |x: &u32| x.wrapping_add(add) >> (32 - (i + 1) * bgbit) & ((1 << bgbit) - 1);
    a.iter().map(|x| field(x).wrapping_sub(1 << (bgbit - 1))).collect()
}

/// The 2L digit polynomials, one after the other.
pub fn decomposition(p: &[u32; 6], a: &[u32], b: &[u32]) -> Vec<u32> {
    [a, b].iter().flat_map(|x| (0..p[3]).flat_map(|i| digits(p, x, i))).collect()
}

pub fn external(p: &[u32; 6], rows: &[u32], a: &[u32], b: &[u32]) -> Pair {
    let n = a.len();
    let parts = decomposition(p, a, b);
    let mut out = (vec![0; n], vec![0; n]);
    for (digit, row) in parts.chunks(n).zip(rows.chunks(2 * n)) {
        out.0 = plus(&out.0, &product(digit, &row[..n]));
        out.1 = plus(&out.1, &product(digit, &row[n..]));
    }
    out
}

pub fn cmux(p: &[u32; 6], one: (&[u32], &[u32]), two: (&[u32], &[u32]), rows: &[u32]) -> Pair {
    let (x, y) = external(p, rows, &minus(two.0, one.0), &minus(two.1, one.1));
    (plus(one.0, &x), plus(one.1, &y))
}

/// Places move by k modulo 2N; what ends in the upper half is complemented.
pub fn rotated(a: &[u32], k: usize) -> Vec<u32> {
    let n = a.len();
    let mut out = vec![0; n];
    for (i, &x) in a.iter().enumerate() {
        let place = (i + k) % (2 * n);
        out[place % n] = if place < n { x } else { !x };
    }
    out
}

pub fn mask_amount(p: &[u32; 6], word: u32) -> u32 {
    let h = 1u32 << (30 - p[1]);
    word.wrapping_add(h) / (2 * h)
}

pub fn body_amount(p: &[u32; 6], word: u32) -> u32 {
    let h = 1u64 << (30 - p[1]);
    (2 << p[1]) - ((word as u64 + h) / (2 * h)) as u32
}

pub fn step(p: &[u32; 6], key: &[u32], i: usize, mask: u32, a: &[u32], b: &[u32]) -> Pair {
    let len = Sizes::of(p).rows();
    let k = mask_amount(p, mask) as usize;
    let turned = (rotated(a, k), rotated(b, k));
    cmux(p, (a, b), (&turned.0, &turned.1), &key[i * len..(i + 1) * len])
}

/// The rotation of the gates' test vector.
pub fn blind_rotate(p: &[u32; 6], src: &[u32], key: &[u32]) -> Pair {
    let ring = Sizes::of(p).ring;
    blind_rotate_of(p, src, (&vec![0; ring], &vec![1 << 29; ring]), key)
}

/// The rotation of any test vector.
pub fn blind_rotate_of(p: &[u32; 6], src: &[u32], vector: (&[u32], &[u32]), key: &[u32]) -> Pair {
    ROTATIONS.set(ROTATIONS.get() + 1);
    let n = Sizes::of(p).n;
    let k = body_amount(p, src[n]) as usize;
    let mut at = (rotated(vector.0, k), rotated(vector.1, k));
    for i in 0..n {
        at = step(p, key, i, src[i], &at.0, &at.1);
    }
    at
}

pub fn extract(a: &[u32], b: &[u32], k: usize) -> Vec<u32> {
    let n = a.len();
    let mut out: Vec<u32> = (0..n).map(|i| if i <= k { a[k - i] } else { !a[n + k - i] }).collect();
    out.push(b[k]);
    out
}

/// The rows of the switching key that the fields of src choose; a field of 0 chooses none.
pub fn chosen(p: &[u32; 6], src: &[u32]) -> Vec<usize> {
    let s = Sizes::of(p);
    let mut out = Vec::new();
    for i in 0..s.ring {
        let a = src[i].wrapping_add(1 << (31 - p[4] * p[5]));
        for j in 0..s.t {
            let k = (a >> (32 - (j as u32 + 1) * p[4])) as usize % s.base;
            if k != 0 {
                out.push(s.place([i, j, k]));
            }
        }
    }
    out
}

pub fn switch(p: &[u32; 6], src: &[u32], key: &[u32]) -> Vec<u32> {
    let s = Sizes::of(p);
    let mut out = vec![0; s.n + 1];
    out[s.n] = src[s.ring];
    for row in chosen(p, src) {
        let at = row * (s.n + 1);
        out = minus(&out, &key[at..at + s.n + 1]);
    }
    out
}

/// The two-input gates: multiples of a and b, then eighths of a turn, as document 01 has them.
pub const SUMS: [(&str, i32, i32, i32); 10] = [
    ("nand", -1, -1, 1),
    ("or", 1, 1, 1),
    ("and", 1, 1, -1),
    ("nor", -1, -1, -1),
    ("and_ny", -1, 1, -1),
    ("and_yn", 1, -1, -1),
    ("or_ny", -1, 1, 1),
    ("or_yn", 1, -1, 1),
    ("xor", 1, 2, 2),
    ("xnor", 1, -2, -2),
];

/// The gate's value on bits: the sign of its sum.
pub fn meaning(name: &str, a: bool, b: bool) -> bool {
    let (_, x, y, e) = SUMS.into_iter().find(|g| g.0 == name).expect("a gate");
    let sign = |bit| if bit { 1 } else { -1 };
    (x * sign(a) + y * sign(b) + e).rem_euclid(8) < 4
}

/// What a two-input gate rotates.
pub fn sum(name: &str, a: &[u32], b: &[u32]) -> Vec<u32> {
    let (_, x, y, e) = SUMS.into_iter().find(|g| g.0 == name).expect("a gate");
    let mut out: Vec<u32> =
        a.iter().zip(b).map(|(u, v)| u.wrapping_mul(x as u32).wrapping_add(v.wrapping_mul(y as u32))).collect();
    let last = out.len() - 1;
    out[last] = out[last].wrapping_add((e << 29) as u32);
    out
}

/// What a two-input gate switches: its sum rotated and extracted.
pub fn turned(p: &[u32; 6], name: &str, a: &[u32], b: &[u32], bootstrapping: &[u32]) -> Vec<u32> {
    let (x, y) = blind_rotate(p, &sum(name, a, b), bootstrapping);
    extract(&x, &y, 0)
}

pub fn gate(p: &[u32; 6], name: &str, a: &[u32], b: &[u32], switching: &[u32], bootstrapping: &[u32]) -> Vec<u32> {
    switch(p, &turned(p, name, a, b, bootstrapping), switching)
}

/// What mux switches.
pub fn both_turned(p: &[u32; 6], a: &[u32], b: &[u32], c: &[u32], bootstrapping: &[u32]) -> Vec<u32> {
    let mut both = plus(&turned(p, "and", a, b, bootstrapping), &turned(p, "and_ny", a, c, bootstrapping));
    let last = both.len() - 1;
    both[last] = both[last].wrapping_add(1 << 29);
    both
}

pub fn mux(p: &[u32; 6], a: &[u32], b: &[u32], c: &[u32], switching: &[u32], bootstrapping: &[u32]) -> Vec<u32> {
    switch(p, &both_turned(p, a, b, c, bootstrapping), switching)
}

pub fn not(a: &[u32]) -> Vec<u32> {
    a.iter().map(|x| x.wrapping_neg()).collect()
}

pub fn mux_naive(p: &[u32; 6], a: &[u32], b: &[u32], c: &[u32], switching: &[u32], bootstrapping: &[u32]) -> Vec<u32> {
    let one = gate(p, "and", a, b, switching, bootstrapping);
    let two = gate(p, "and", &not(a), c, switching, bootstrapping);
    gate(p, "or", &one, &two, switching, bootstrapping)
}
