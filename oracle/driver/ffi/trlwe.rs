crate::ffi::c_functions! {
    fn egl_trlwe_encrypt_f64(doubles, words, words, words, words_out, words_out);
    fn egl_trlwe_encrypt_bool(bytes, words, words, words, words_out, words_out);
    fn egl_trlwe_decrypt_bool(words, words, words, bytes_out);
    fn egl_trlwe_sample_extract_index(words, words, usize, words_out);
}
