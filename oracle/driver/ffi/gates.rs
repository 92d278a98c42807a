crate::ffi::c_functions! {
    fn egl_gates_nand(words, words, words, words, words_out);
    fn egl_gates_or(words, words, words, words, words_out);
    fn egl_gates_and(words, words, words, words, words_out);
    fn egl_gates_nor(words, words, words, words, words_out);
    fn egl_gates_and_ny(words, words, words, words, words_out);
    fn egl_gates_and_yn(words, words, words, words, words_out);
    fn egl_gates_or_ny(words, words, words, words, words_out);
    fn egl_gates_or_yn(words, words, words, words, words_out);
    fn egl_gates_xor(words, words, words, words, words_out);
    fn egl_gates_xnor(words, words, words, words, words_out);
    fn egl_gates_mux(words, words, words, words, words, words_out);
    fn egl_gates_mux_naive(words, words, words, words, words, words_out);
    fn egl_gates_not(words, words_out);
    fn egl_gates_copy(words, words_out);
    fn egl_gates_constant(u32, words_out);
}
