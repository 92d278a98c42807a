//! No parameters travel with these.

crate::ffi::plain_functions! {
    fn egl_circuit_check(bytes);
    fn egl_circuit_counts(bytes, words_out);
    fn egl_circuit_work(bytes);
    fn egl_circuit_run_plain(bytes, bytes, bytes_out);
}
