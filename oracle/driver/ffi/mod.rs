//! The library's C interface, one file for each group. A line such as
//! `fn egl_x(words, u32, words_out);` declares the C function whose arguments are the six
//! parameters and then these (a slice as pointer and length), and makes a function of the
//! same name that takes the arguments of a case. The builder reads these lines as well.

use crate::case::Arg;
use std::cell::RefCell;
use std::collections::BTreeSet;

thread_local!(static DONE: RefCell<BTreeSet<&'static str>> = const { RefCell::new(BTreeSet::new()) });

/// Notes the function whose call gave this answer, where it did its work: one that none ever did is an error at the end.
pub fn noted(name: &'static str, answer: u64) -> u64 {
    if answer as u32 == 0 {
        DONE.with(|done| done.borrow_mut().insert(name));
    }
    answer
}

/// The functions noted in this thread.
pub fn done() -> BTreeSet<&'static str> {
    DONE.with(|done| done.borrow().clone())
}

// Where the library runs in another process (`bridge`), a function sends its arguments there.
#[cfg(bridge)]
macro_rules! c_functions {
    ($(fn $f:ident($($kind:ident),*);)*) => {
        $(pub fn $f(p: &[u32; 6], args: &mut [crate::case::Arg]) -> u64 {
            crate::ffi::noted(stringify!($f), crate::bridge::call(stringify!($f), &[$(stringify!($kind)),*], p, args))
        })*
    };
}

#[cfg(bridge)]
macro_rules! plain_functions {
    ($(fn $f:ident($($kind:ident),*);)*) => {
        $(pub fn $f(args: &mut [crate::case::Arg]) -> u64 {
            crate::ffi::noted(stringify!($f), crate::bridge::call(stringify!($f), &[$(stringify!($kind)),*], &[0; 6], args))
        })*
    };
}

#[cfg(not(bridge))]
macro_rules! c_functions {
    ($(fn $f:ident($($kind:ident),*);)*) => {
        $(crate::ffi::c_function!(@ $f next (p: &[u32; 6]) [u32, u32, u32, u32, u32, u32,] [] [p[0], p[1], p[2], p[3], p[4], p[5],] $($kind)*);)*
    };
}

// The same without the six parameters.
#[cfg(not(bridge))]
macro_rules! plain_functions {
    ($(fn $f:ident($($kind:ident),*);)*) => {
        $(crate::ffi::c_function!(@ $f next () [] [] [] $($kind)*);)*
    };
}

#[cfg(not(bridge))]
macro_rules! c_function {
    (@ $f:ident $next:ident ($($first:ident: $of:ty)?) [$($ty:ty,)*] [$($let:tt)*] [$($arg:expr,)*]) => {
        pub fn $f($($first: $of,)? args: &mut [crate::case::Arg]) -> u64 {
            #[allow(clashing_extern_declarations)]
            unsafe extern "C" {
                fn $f($(_: $ty),*) -> u64;
            }
            #[allow(unused_mut, unused_variables)]
            let mut $next = crate::lent::Call::of(args);
            $($let)*
            let answer = unsafe { $f($($arg),*) };
            crate::ffi::noted(stringify!($f), $next.back(answer))
        }
    };
    (@ $f:ident $next:ident ($($first:ident: $of:ty)?) [$($ty:ty,)*] [$($let:tt)*] [$($arg:expr,)*] u8 $($kind:ident)*) => {
        crate::ffi::c_function!(@ $f $next ($($first: $of)?) [$($ty,)* u8,] [$($let)* let x = $next.next().num() as u8;] [$($arg,)* x,] $($kind)*);
    };
    (@ $f:ident $next:ident ($($first:ident: $of:ty)?) [$($ty:ty,)*] [$($let:tt)*] [$($arg:expr,)*] u32 $($kind:ident)*) => {
        crate::ffi::c_function!(@ $f $next ($($first: $of)?) [$($ty,)* u32,] [$($let)* let x = $next.next().num() as u32;] [$($arg,)* x,] $($kind)*);
    };
    (@ $f:ident $next:ident ($($first:ident: $of:ty)?) [$($ty:ty,)*] [$($let:tt)*] [$($arg:expr,)*] u64 $($kind:ident)*) => {
        crate::ffi::c_function!(@ $f $next ($($first: $of)?) [$($ty,)* u64,] [$($let)* let x = $next.next().num();] [$($arg,)* x,] $($kind)*);
    };
    (@ $f:ident $next:ident ($($first:ident: $of:ty)?) [$($ty:ty,)*] [$($let:tt)*] [$($arg:expr,)*] usize $($kind:ident)*) => {
        crate::ffi::c_function!(@ $f $next ($($first: $of)?) [$($ty,)* usize,] [$($let)* let x = $next.next().num() as usize;] [$($arg,)* x,] $($kind)*);
    };
    (@ $f:ident $next:ident ($($first:ident: $of:ty)?) [$($ty:ty,)*] [$($let:tt)*] [$($arg:expr,)*] f64 $($kind:ident)*) => {
        crate::ffi::c_function!(@ $f $next ($($first: $of)?) [$($ty,)* f64,] [$($let)* let x = crate::ffi::turn($next.next());] [$($arg,)* x,] $($kind)*);
    };
    (@ $f:ident $next:ident ($($first:ident: $of:ty)?) [$($ty:ty,)*] [$($let:tt)*] [$($arg:expr,)*] $slice:ident $($kind:ident)*) => {
        crate::ffi::c_function!(@ $f $next ($($first: $of)?) [$($ty,)* *mut crate::ffi::$slice, usize,]
            [$($let)* let (x, len) = $next.slice(stringify!($slice).ends_with("_out"));] [$($arg,)* x.cast(), len,] $($kind)*);
    };
}

#[cfg(not(bridge))]
pub(crate) use c_function;
pub(crate) use {c_functions, plain_functions};

// The elements of a lent slice, by the name that a declaration uses.
#[allow(non_camel_case_types)]
pub type words = u32;
#[allow(non_camel_case_types)]
pub type words_out = u32;
#[allow(non_camel_case_types)]
pub type bytes = u8;
#[allow(non_camel_case_types)]
pub type bytes_out = u8;
#[allow(non_camel_case_types)]
pub type doubles = f64;
#[allow(non_camel_case_types)]
pub type longs_out = u64;

pub fn turn(arg: &Arg) -> f64 {
    match arg {
        Arg::Turn(d) => *d,
        _ => panic!("not a turn"),
    }
}

#[cfg(group_bristol)]
pub mod bristol;
// imported and exported circuits are run on plain bits, and the work is held against the rotations of encrypted runs and drift runs
#[cfg(any(group_circuit, group_bristol, group_encrypted, group_drift))]
pub mod circuit;
#[cfg(group_column)]
pub mod column;
// the drifts that a drift run leaves are reported
#[cfg(any(group_drift, group_drift_report))]
pub mod drift;
#[cfg(group_drift_report)]
pub mod drift_report;
// drift runs are compared with encrypted runs, and those and columns with single gates
#[cfg(any(group_encrypted, group_drift))]
pub mod encrypted;
#[cfg(any(group_gates, group_column, group_encrypted, group_drift))]
pub mod gates;
#[cfg(group_key)]
pub mod key;
#[cfg(group_params)]
pub mod params;
#[cfg(group_product)]
pub mod product;
#[cfg(group_rotation)]
pub mod rotation;
#[cfg(group_tables)]
pub mod tables;
// what a lookup gives is decrypted
#[cfg(any(group_tlwe, group_tables))]
pub mod tlwe;
#[cfg(group_trgsw)]
pub mod trgsw;
#[cfg(group_trlwe)]
pub mod trlwe;
#[cfg(group_utils)]
pub mod utils;
