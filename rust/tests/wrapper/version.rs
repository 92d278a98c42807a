//! Crate, header and archive are of one version.

use egl::{archive_version, INTERFACE_VERSION};

/// The number that the header defines under a name.
pub fn stated(name: &str) -> Option<u32> {
    let header = include_str!("../../../include/egl.h");
    header.lines().find_map(|line| line.strip_prefix(&format!("#define {name} "))).and_then(|word| word.parse().ok())
}

#[test]
fn one_version() {
    assert_eq!((Some(INTERFACE_VERSION), archive_version()), (stated("EGL_VERSION"), INTERFACE_VERSION));
}
