//! Tells cargo where the proved archive is: `EGL_ARCHIVE_DIR`, or the folder into which `examples/archive` writes it.

use std::env;
use std::path::PathBuf;

fn main() {
    println!("cargo:rerun-if-env-changed=EGL_ARCHIVE_DIR");
    println!("cargo:rerun-if-changed=build.rs");
    let here = PathBuf::from(env::var_os("CARGO_MANIFEST_DIR").unwrap_or_default());
    let folder = env::var_os("EGL_ARCHIVE_DIR").map_or_else(|| here.join("../target/staticlib"), PathBuf::from);
    let archive = folder.join("libegl_c.a");
    println!("cargo:rerun-if-changed={}", archive.display());
    println!("cargo:rustc-link-search=native={}", folder.display());
    println!("cargo:rustc-link-lib=static=egl_c");
    println!("cargo:rustc-link-lib=m");
    if !archive.exists() {
        println!("cargo:warning={} is missing: make it with `examples/archive`, or name its folder in EGL_ARCHIVE_DIR", archive.display());
    }
    if env::var("CARGO_CFG_TARGET_ARCH").map_or(false, |a| a != "x86_64") {
        println!(
            "cargo:warning=libegl_c.a is machine code for x86-64: for another target nothing can be linked; rust/run compiles for x86-64 and uses an emulator"
        );
    }
}
