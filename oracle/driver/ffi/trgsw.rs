crate::ffi::c_functions! {
    fn egl_trgsw_encrypt_torus(u32, words, words, words, words_out);
    fn egl_trgsw_gen_bootstrapping_key(words, words, words, words, words_out);
    fn egl_trgsw_decomposition(words, words, words_out);
    fn egl_trgsw_external_product(words, words, words, words_out, words_out);
    fn egl_trgsw_cmux(words, words, words, words, words, words_out, words_out);
    fn egl_trgsw_blind_rotate_step(words, usize, u32, words_out, words_out);
    fn egl_trgsw_blind_rotate(words, words, words_out, words_out);
    fn egl_trgsw_identity_key_switching(words, words, words_out);
}
