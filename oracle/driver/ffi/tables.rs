crate::ffi::c_functions! {
    fn egl_table_testvec(u64, words, words_out, words_out);
    fn egl_trgsw_blind_rotate_with_testvec(words, words, words, words, words_out, words_out);
    fn egl_lookup(u64, words, words, words, words, words_out);
    fn egl_lookup_drift(u64, words, u64, u64, words, words, words, words, words, words_out, words_out);
}
