crate::ffi::c_functions! {
    fn egl_params_check();
}

#[cfg(bridge)]
pub use crate::bridge::params as check_all;

/// The answers for a list of parameters, one call each.
#[cfg(not(bridge))]
pub fn check_all(list: &[[u32; 6]]) -> Vec<u64> {
    list.iter().map(|p| egl_params_check(p, &mut [])).collect()
}
