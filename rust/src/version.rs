//! Which interface: that which the crate is written for, and the archive's own.

use crate::ffi;

/// The version of the interface that this crate is written for, `EGL_VERSION` of its header.
pub const INTERFACE_VERSION: u32 = 7;

/// The version of the interface that the linked archive has. Where it is not [`INTERFACE_VERSION`], crate and archive do not belong together: up to version 3, for one, a mux
/// counted one in [`Circuit::work`](crate::Circuit::work). [`DriftReport`](crate::DriftReport) came with version 5. Up to that version the switching
/// key had rows that nothing read: [`OwnedCloudKey::from_former_words`](crate::OwnedCloudKey::from_former_words) takes such a key. [`Table`](crate::Table) came with version 7.
pub fn archive_version() -> u32 {
    ffi::version()
}
