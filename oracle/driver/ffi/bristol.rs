//! No parameters travel with these.

crate::ffi::plain_functions! {
    fn egl_bristol_import(bytes, bytes_out);
    fn egl_bristol_export(bytes, bytes_out);
}
