//! The same routines in plain Rust.

/// out = a * b modulo X^N + 1 and 2^32: the row doubled (negated words, then the words), the
/// window going up, so that the inner loop has neither a test nor a second part.
pub fn product_doubled(a: &[u32], b: &[u32], out: &mut [u32]) {
    let n = a.len();
    let mut twice = [0u32; 2048];
    for k in 0..n {
        twice[k] = b[k].wrapping_neg();
        twice[n + k] = b[k];
    }
    out.fill(0);
    for e in 1..=n {
        let x = a[n - e];
        for (o, y) in out.iter_mut().zip(&twice[e..e + n]) {
            *o = o.wrapping_add(x.wrapping_mul(*y));
        }
    }
}

/// The same as two loops for each coefficient.
pub fn product_two_loops(a: &[u32], b: &[u32], out: &mut [u32]) {
    let n = a.len();
    out.fill(0);
    for (i, &x) in a.iter().enumerate() {
        let (low, high) = b.split_at(n - i);
        for (o, y) in out[i..].iter_mut().zip(low) {
            *o = o.wrapping_add(x.wrapping_mul(*y));
        }
        for (o, y) in out[..i].iter_mut().zip(high) {
            *o = o.wrapping_sub(x.wrapping_mul(*y));
        }
    }
}

/// Encryption of a word, without any check, as the original does it.
pub fn encrypt(plain: u32, masks: &[u32], noise: u32, key: &[u32], out: &mut [u32]) {
    let mut sum = 0u32;
    for ((o, &m), &z) in out.iter_mut().zip(masks).zip(key) {
        sum = sum.wrapping_add(m.wrapping_mul(z));
        *o = m;
    }
    out[masks.len()] = sum.wrapping_add(plain).wrapping_add(noise);
}

pub fn decrypt(c: &[u32], key: &[u32]) -> bool {
    let sum = c.iter().zip(key).fold(0u32, |s, (&x, &z)| s.wrapping_add(x.wrapping_mul(z)));
    c[key.len()].wrapping_sub(sum) as i32 >= 0
}

/// The same with the library's checks: lengths, and words of the key 0 or 1. The words are
/// joined by `or` in the loop that sums, before anything is written.
pub fn encrypt_checked(plain: u32, masks: &[u32], noise: u32, key: &[u32], out: &mut [u32]) -> bool {
    let n = key.len();
    if masks.len() != n || out.len() != n + 1 {
        return false;
    }
    let (sum, all) = sum_and_all(masks, key);
    if all > 1 {
        return false;
    }
    out[..n].copy_from_slice(masks);
    out[n] = sum.wrapping_add(plain).wrapping_add(noise);
    true
}

fn sum_and_all(words: &[u32], key: &[u32]) -> (u32, u32) {
    words.iter().zip(key).fold((0u32, 0u32), |(s, all), (&x, &z)| (s.wrapping_add(x.wrapping_mul(z)), all | z))
}

pub fn decrypt_checked(c: &[u32], key: &[u32]) -> Option<bool> {
    if c.len() != key.len() + 1 {
        return None;
    }
    let (sum, all) = sum_and_all(c, key);
    (all <= 1).then_some(c[key.len()].wrapping_sub(sum) as i32 >= 0)
}

/// Key switching; row (i, j, k), k from 1, stands at (BASE - 1)·(T·i + j) + k - 1.
pub fn switch(src: &[u32], key: &[u32], n: usize, basebit: u32, t: u32, out: &mut [u32]) {
    let (ring, base) = (src.len() - 1, 1usize << basebit);
    out.fill(0);
    out[n] = src[ring];
    for (i, &word) in src[..ring].iter().enumerate() {
        let a = word.wrapping_add(1 << (31 - basebit * t));
        for j in 0..t as usize {
            let k = (a >> (32 - (j as u32 + 1) * basebit)) as usize & (base - 1);
            if k != 0 {
                let row = ((base - 1) * (t as usize * i + j) + k - 1) * (n + 1);
                for (o, r) in out.iter_mut().zip(&key[row..row + n + 1]) {
                    *o = o.wrapping_sub(*r);
                }
            }
        }
    }
}

/// Operands that each kind of gate needs.
pub const NEEDS: [u8; 14] = [0, 0, 1, 2, 2, 2, 2, 2, 2, 2, 2, 2, 2, 3];

/// Reads a circuit with all of the library's checks: 0, or the number of the first fault and above it its place.
pub fn check_circuit(bytes: &[u8]) -> u64 {
    let fault = |number: u64, place: usize| number | (place as u64) << 32;
    if bytes.len() < 11 {
        return fault(8, 0);
    }
    let field = |at: usize| u16::from_le_bytes([bytes[at], bytes[at + 1]]) as usize;
    if !bytes.starts_with(b"EGL") {
        return fault(6, 0);
    }
    if field(3) != 1 {
        return fault(7, 3);
    }
    let (inputs, gates, outputs) = (field(5), field(7), field(9));
    if inputs > 256 {
        return fault(8, 5);
    }
    if gates > 1024 {
        return fault(8, 7);
    }
    if outputs == 0 || outputs > 64 {
        return fault(8, 9);
    }
    if bytes.len() != 11 + 8 * gates + 2 * outputs {
        return fault(8, 11);
    }
    let (list, last) = bytes[11..].split_at(8 * gates);
    for (g, gate) in list.chunks_exact(8).enumerate() {
        let at = 11 + 8 * g;
        let Some(&needs) = NEEDS.get(gate[0] as usize) else { return fault(9, at) };
        if gate[1] != 0 {
            return fault(9, at + 1);
        }
        for i in 0..3 {
            let wire = u16::from_le_bytes([gate[2 + 2 * i], gate[3 + 2 * i]]) as usize;
            let bound = if i < needs as usize { inputs + g } else { 1 };
            if wire >= bound {
                return fault(9, at + 2 + 2 * i);
            }
        }
    }
    for (o, wire) in last.chunks_exact(2).enumerate() {
        if u16::from_le_bytes([wire[0], wire[1]]) as usize >= inputs + gates {
            return fault(10, 11 + 8 * gates + 2 * o);
        }
    }
    0
}
