crate::ffi::c_functions! {
    fn egl_circuit_run_encrypted(words, words, bytes, words, words_out, words_out);
    fn egl_circuit_run_gate(words, words, bytes, usize, words_out);
}
