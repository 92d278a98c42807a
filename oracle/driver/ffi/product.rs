crate::ffi::c_functions! {
    fn egl_product_poly_mul(words, words, words_out);
    fn egl_product_poly_mul_add(words, words, words_out);
}
