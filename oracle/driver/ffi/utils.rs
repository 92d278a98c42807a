//! No parameters travel with these. Two of them are asked for whole lists at a time.

use crate::case::Arg;

crate::ffi::plain_functions! {
    fn egl_utils_f64_to_torus_vec(doubles, words_out);
    fn egl_version();
}

#[cfg(bridge)]
use crate::bridge::{doubles_of as each_double, words_of as each_word};

#[cfg(not(bridge))]
unsafe extern "C" {
    fn egl_utils_f64_to_torus(d: f64) -> u32;
    fn egl_utils_torus_to_f64(t: u32) -> f64;
}

#[cfg(not(bridge))]
fn each_word(list: &[f64]) -> Vec<u32> {
    list.iter().map(|d| unsafe { egl_utils_f64_to_torus(*d) }).collect()
}

#[cfg(not(bridge))]
fn each_double(list: &[u32]) -> Vec<f64> {
    list.iter().map(|w| unsafe { egl_utils_torus_to_f64(*w) }).collect()
}

/// The words of doubles, one call each.
pub fn words_of(list: &[f64]) -> Vec<u32> {
    crate::ffi::noted("egl_utils_f64_to_torus", 0);
    each_word(list)
}

/// The doubles of words, one call each.
pub fn doubles_of(list: &[u32]) -> Vec<f64> {
    crate::ffi::noted("egl_utils_torus_to_f64", 0);
    each_double(list)
}
