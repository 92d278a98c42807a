crate::ffi::c_functions! {
    fn egl_drift_run(words, words, words, words, bytes, words, bytes, words_out, words_out, words_out);
    fn egl_drift_gate(words, words, words, words, bytes, usize, words_out, words_out);
    fn egl_fresh_drift(words, words, u8);
}

// No parameters travel with this one; what it gives is a word, so the answer's high half says nothing.
crate::ffi::plain_functions! {
    fn egl_drift_inside(u32);
}
