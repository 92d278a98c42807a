//! No parameters travel with these.

crate::ffi::plain_functions! {
    fn egl_drift_report_empty(words_out);
    fn egl_drift_report_of(words, words_out);
    fn egl_drift_report_merge(words, words, words_out);
}
