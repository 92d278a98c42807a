//! Doubles to words and back: 3 million doubles against the original and against the word
//! worked out from the double's bits; words there and back; the slice form. Also the version, which needs no group of its own.

use crate::case::{Arg, Set};
use crate::compare::Tally;
use crate::exact;
use crate::ffi::utils::*;
use crate::source::Source;
use oracle_api::Original;

type Reference = Option<&'static dyn Original>;

fn doubles(tally: &mut Tally, original: Reference, list: &[f64]) {
    for (d, got) in list.iter().zip(words_of(list)) {
        let bits = d.to_bits();
        let want = exact::torus(bits);
        tally.same(got == want, || format!("f64_to_torus {bits:#018x}: {got:#x}, wanted {want:#x}"));
        if let Some(o) = original {
            let theirs = o.f64_to_torus(*d);
            tally.same(got == theirs, || format!("f64_to_torus {bits:#018x}: {got:#x}, the original {theirs:#x}"));
        }
    }
}

fn words(tally: &mut Tally, original: Reference, list: &[u32]) {
    let there = doubles_of(list);
    let back = words_of(&there);
    for ((&w, d), back) in list.iter().zip(there).zip(back) {
        tally.same(d * 4294967296.0 == w as f64, || format!("torus_to_f64 {w:#x}: {d}"));
        tally.same(back == w, || format!("there and back {w:#x}: {back:#x}"));
        if let Some(o) = original {
            tally.same(o.torus_to_f64(w).to_bits() == d.to_bits(), || format!("torus_to_f64 {w:#x}: {d}"));
        }
    }
}

fn slice(tally: &mut Tally, original: Reference, source: &mut Source, len: usize, out_len: usize) {
    let d: Vec<f64> = (0..len).map(|_| source.double()).collect();
    let before: Vec<u32> = (0..out_len).map(|_| source.next() as u32).collect();
    let mut args = [Arg::Doubles(d.clone()), Arg::Words(before.clone())];
    let answer = egl_utils_f64_to_torus_vec(&mut args);
    let number = if len == out_len { 0 } else { 2 };
    let want = match original {
        _ if number != 0 => before,
        Some(o) => o.f64_to_torus_vec(&d),
        None => d.iter().map(|x| exact::torus(x.to_bits())).collect(),
    };
    tally.refused(number as u32);
    tally.words += out_len as u64;
    tally.same(answer == number && args[1].w() == want, || format!("f64_to_torus_vec {len} {out_len}: answer {answer}"));
}

/// The archive's version is the header's.
fn version(tally: &mut Tally) {
    let stated = super::stated("EGL_VERSION");
    let got = egl_version(&mut []) as u32;
    crate::ffi::noted("egl_version", 0);
    tally.same(stated == Some(got), || format!("version {got}, in the header {stated:?}"));
}

pub fn run(sets: &[Set], tally: &mut Tally) {
    version(tally);
    let original = sets.iter().find_map(|s| s.original);
    let mut source = Source::new(crate::SEED, "utils");
    let mut list = Vec::new();
    for sign in [0u64, 1 << 63] {
        for exponent in 0..2048u64 {
            let mut add = |mantissa: u64| list.push(f64::from_bits(sign | exponent << 52 | mantissa));
            [0, 1, 2, 1 << 51, (1 << 52) - 1, (1 << 52) - 2, 1 << 20, (1 << 51) + 1].into_iter().for_each(&mut add);
            (0..100).for_each(|_| add(source.next() >> 12));
        }
    }
    list.extend((0..2_600_000).map(|_| source.double()));
    for part in list.chunks(1 << 13) {
        doubles(tally, original, part);
    }
    let examples = [(-0.125, 0xE000_0000), (1.75, 0xC000_0000), (0.125, 0x2000_0000), (-0.0, 0), (f64::NAN, 0), (f64::INFINITY, 0)];
    for (d, w) in examples {
        let got = words_of(&[d])[0];
        tally.same(got == w, || format!("document 01: {d} gives {got:#x}, wanted {w:#x}"));
    }
    let step = (1u64 << 32) / 65_537;
    let mut list: Vec<u32> = (0..=65_537u64).flat_map(|i| [(i * step) as u32, source.word()]).collect();
    list.push(u32::MAX);
    for part in list.chunks(1 << 13) {
        words(tally, original, part);
    }
    for len in 0..40 {
        for out_len in 0..40 {
            slice(tally, original, &mut source, len, out_len);
        }
        slice(tally, original, &mut source, 1024 + len, 1024 + len);
    }
}
