crate::ffi::c_functions! {
    fn egl_trgsw_poly_mul_with_x_k(words, u32, words_out);
    fn egl_trgsw_mask_amount(u32);
    fn egl_trgsw_body_amount(u32);
}
