crate::ffi::c_functions! {
    fn egl_tlwe_add_lv0(words, words, words_out);
    fn egl_tlwe_add_lv1(words, words, words_out);
    fn egl_tlwe_sub_lv0(words, words, words_out);
    fn egl_tlwe_sub_lv1(words, words, words_out);
    fn egl_tlwe_neg_lv0(words, words_out);
    fn egl_tlwe_neg_lv1(words, words_out);
    fn egl_tlwe_add_mul_lv0(words, words, u32, words_out);
    fn egl_tlwe_add_mul_lv1(words, words, u32, words_out);
    fn egl_tlwe_sub_mul_lv0(words, words, u32, words_out);
    fn egl_tlwe_sub_mul_lv1(words, words, u32, words_out);
    fn egl_tlwe_encrypt_bit_lv0(u32, words, u32, words, words_out);
    fn egl_tlwe_encrypt_bit_lv1(u32, words, u32, words, words_out);
    fn egl_tlwe_encrypt_turn_lv0(f64, words, u32, words, words_out);
    fn egl_tlwe_encrypt_turn_lv1(f64, words, u32, words, words_out);
    fn egl_tlwe_encrypt_message_lv0(u64, u64, words, u32, words, words_out);
    fn egl_tlwe_encrypt_message_lv1(u64, u64, words, u32, words, words_out);
    fn egl_tlwe_decrypt_bit_lv0(words, words);
    fn egl_tlwe_decrypt_bit_lv1(words, words);
    fn egl_tlwe_decrypt_message_lv0(u64, words, words);
    fn egl_tlwe_decrypt_message_lv1(u64, words, words);
}
