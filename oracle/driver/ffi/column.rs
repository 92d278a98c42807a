crate::ffi::c_functions! {
    fn egl_gate_column(usize, usize, words, words, words, words_out);
}
