//! The two layouts of the switching key, n + 1 words a row in both. The library's has no idle rows (document 02, 2026-06). The original's has, in front of the rows of each
//! field, one with k = 0 that nothing reads; the library had it too up to version 5 of its interface. What goes to the original or comes from it is turned here.

use crate::sizes::Sizes;
use crate::source::Source;
use oracle_api::{Cloud, Original};

/// The place of row (i, j, k) among the original's rows, by document 01's formula.
pub fn former_place(s: &Sizes, [i, j, k]: [usize; 3]) -> usize {
    s.base * s.t * i + s.base * j + k
}

/// The rows that both have, in order.
pub fn rows(s: &Sizes) -> impl Iterator<Item = [usize; 3]> {
    let (ring, t, base) = (s.ring, s.t, s.base);
    (0..ring).flat_map(move |i| (0..t).flat_map(move |j| (1..base).map(move |k| [i, j, k])))
}

/// The original's key without its idle rows: each row is taken from its place there and put into its place here.
pub fn without_idle_rows(p: &[u32; 6], former: &[u32]) -> Vec<u32> {
    let (s, words) = (Sizes::of(p), p[0] as usize + 1);
    let mut out = vec![0; s.switching()];
    for row in rows(&s) {
        let (from, to) = (former_place(&s, row) * words, s.place(row) * words);
        out[to..to + words].copy_from_slice(&former[from..from + words]);
    }
    out
}

/// A key with idle rows put in. No word may depend on them, on either side: they hold junk.
pub fn with_idle_rows(p: &[u32; 6], key: &[u32]) -> Vec<u32> {
    let (s, words) = (Sizes::of(p), p[0] as usize + 1);
    let mut source = Source::new(crate::SEED, "idle rows");
    let mut out: Vec<u32> = (0..s.former_switching()).map(|_| source.next() as u32).collect();
    for row in rows(&s) {
        let (from, to) = (s.place(row) * words, former_place(&s, row) * words);
        out[to..to + words].copy_from_slice(&key[from..from + words]);
    }
    out
}

/// The original's cloud key of these two.
pub fn cloud(original: &dyn Original, switching: &[u32], bootstrapping: &[u32]) -> Box<dyn Cloud> {
    original.cloud(&with_idle_rows(&original.params(), switching), bootstrapping)
}
