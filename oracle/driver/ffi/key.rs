crate::ffi::c_functions! {
    fn egl_key_decomposition_offset();
    fn egl_key_gen_testvec(words_out, words_out);
    fn egl_key_gen_key_switching_key(words, words, words, words, words_out);
    fn egl_key_drop_idle_rows(words, words_out);
    fn egl_key_switching_row_answer(usize, usize, usize, usize);
    fn egl_key_row_index(usize, usize, usize);
}
