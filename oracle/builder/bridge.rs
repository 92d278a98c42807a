//! The archive holds x86-64 code. On another processor the driver cannot link it: a small C
//! program does, runs under an emulator, and answers calls over its standard input and output.
//! The program is written here from the declarations in driver/ffi.

use std::collections::BTreeSet;
use std::fs;
use std::path::{Path, PathBuf};
use std::process::Command;

/// Whether the archive's code is x86-64 and this machine is not.
pub fn needed(archive: &[u8]) -> bool {
    let elf = archive.windows(20).find(|w| w.starts_with(b"\x7fELF"));
    elf.is_some_and(|w| w[18] == 62) && std::env::consts::ARCH != "x86_64"
}

/// The emulator on the path.
pub fn emulator() -> Option<PathBuf> {
    let paths = std::env::var_os("PATH")?;
    let found = |name: &str| std::env::split_paths(&paths).map(|d| d.join(name)).find(|f| f.exists());
    found("qemu-x86_64-static").or_else(|| found("qemu-x86_64"))
}

const HEAD: &str = r#"/* Made by oracle/builder. Answers calls read from standard input. */
#include <stdint.h>
#include <stdio.h>
#include <stdlib.h>
#include <string.h>
static void in(void *p, size_t n) { if (n && fread(p, 1, n, stdin) != n) exit(0); }
static void out(const void *p, size_t n) { if (n) fwrite(p, 1, n, stdout); }
static uint64_t num(void) { uint64_t x; in(&x, 8); return x; }
static double turn(void) { double x; in(&x, 8); return x; }
/* A lent slice is p, n elements between guards of 64 bytes; was holds what it was lent with, so that a call shows that writes what it may not write. */
typedef struct { unsigned char *all, *p, *was; size_t n; } slice;
enum { GUARD = 64, MARK = 0xA5 };
static slice lent(size_t size) {
    slice s; s.n = num(); size_t len = s.n * size;
    s.all = malloc(len + 2 * GUARD); s.p = s.all + GUARD; s.was = malloc(len + 1);
    memset(s.all, MARK, len + 2 * GUARD); in(s.p, len); memcpy(s.was, s.p, len);
    return s;
}
static int kept(slice s, size_t size, int written) {
    size_t len = s.n * size;
    for (size_t i = 0; i < GUARD; i++) if (s.all[i] != MARK || s.p[len + i] != MARK) return 0;
    return written || !memcmp(s.p, s.was, len);
}
static void done(slice s) { free(s.all); free(s.was); }
"#;

/// C's type, how an argument is read, how it is passed, and of a slice the element's size.
fn parts(kind: &str, i: usize) -> (String, String, String, Option<u32>) {
    let (element, size) = match kind.trim_end_matches("_out") {
        "words" => ("uint32_t", 4),
        "bytes" => ("uint8_t", 1),
        "longs" => ("uint64_t", 8),
        "doubles" => ("double", 8),
        "f64" => return ("double".into(), format!("double a{i} = turn();"), format!("a{i}"), None),
        "u8" => return ("uint8_t".into(), format!("uint64_t a{i} = num();"), format!("(uint8_t)a{i}"), None),
        "u32" => return ("uint32_t".into(), format!("uint64_t a{i} = num();"), format!("(uint32_t)a{i}"), None),
        _ => return ("uint64_t".into(), format!("uint64_t a{i} = num();"), format!("a{i}"), None),
    };
    (format!("{element} *, size_t"), format!("slice a{i} = lent({size});"), format!("(void *)a{i}.p, a{i}.n"), Some(size))
}

fn one(name: &str, kinds: &[&str], with_params: bool) -> (String, String) {
    let mut types = Vec::new();
    let mut passed = Vec::new();
    if with_params {
        types = vec!["uint32_t".to_string(); 6];
        passed = (0..6).map(|i| format!("p[{i}]")).collect();
    }
    let (mut reads, mut kept, mut backs, mut frees) = (String::new(), String::from("1"), String::new(), String::new());
    for (i, kind) in kinds.iter().enumerate() {
        let (ty, read, pass, element) = parts(kind, i);
        types.push(ty);
        passed.push(pass);
        reads += &read;
        let Some(size) = element else { continue };
        let written = kind.ends_with("_out");
        kept += &format!(" && kept(a{i}, {size}, {})", written as u32);
        frees += &format!("done(a{i});");
        if written {
            backs += &format!("out(a{i}.p, a{i}.n * {size});");
        }
    }
    let declared = format!("uint64_t {name}({});\n", types.join(", "));
    let case = format!(
        "if (!strcmp(name, \"{name}\")) {{ {reads} uint64_t r = {name}({}); if (!({kept})) r = UINT64_MAX; out(&r, 8); {backs} {frees} }} else ",
        passed.join(", ")
    );
    (declared, case)
}

/// The C program for the functions that these files declare.
fn source(ffi: &Path, files: &BTreeSet<&str>) -> String {
    let (mut head, mut cases) = (HEAD.to_string(), String::new());
    for file in files {
        let text = fs::read_to_string(ffi.join(format!("{file}.rs"))).unwrap_or_default();
        let mut with_params = true;
        for line in text.lines() {
            // the six parameters travel with the functions of the one list and not with those of the other
            if line.contains("_functions!") {
                with_params = line.contains("c_functions!");
            }
            // a line with types in it is a declaration for linking, not for the bridge
            let Some(line) = line.trim().strip_prefix("fn egl_").filter(|l| !l.contains(':')) else { continue };
            let Some((name, rest)) = line.split_once('(') else { continue };
            let kinds: Vec<&str> = rest.trim_end_matches(");").split(", ").filter(|k| !k.is_empty()).collect();
            let (declared, case) = one(&format!("egl_{name}"), &kinds, with_params);
            head += &declared;
            cases += &case;
            cases += "\n        ";
        }
    }
    // Three functions answer for whole lists at a time: there are millions of cases.
    let mut lists = String::new();
    if files.contains("params") {
        lists += "if (!strcmp(name, \"params\")) { slice a = lent(24); for (size_t i = 0; i < a.n; i++) { uint32_t *q = (uint32_t *)a.p + 6 * i; uint64_t r = egl_params_check(q[0], q[1], q[2], q[3], q[4], q[5]); out(&r, 8); } done(a); } else\n        ";
    }
    if files.contains("utils") {
        head += "uint32_t egl_utils_f64_to_torus(double);\ndouble egl_utils_torus_to_f64(uint32_t);\n";
        lists += "if (!strcmp(name, \"words\")) { slice a = lent(8); for (size_t i = 0; i < a.n; i++) { uint32_t r = egl_utils_f64_to_torus(((double *)a.p)[i]); out(&r, 4); } done(a); } else\n        ";
        lists += "if (!strcmp(name, \"doubles\")) { slice a = lent(4); for (size_t i = 0; i < a.n; i++) { double r = egl_utils_torus_to_f64(((uint32_t *)a.p)[i]); out(&r, 8); } done(a); } else\n        ";
    }
    let read = "        char name[64]; uint32_t p[6]; uint64_t len = num(); if (len > 63) return 2; in(name, len); name[len] = 0; in(p, 24);\n";
    format!("{head}int main(void) {{\n    for (;;) {{\n{read}        {cases}{lists}return 3;\n        fflush(stdout);\n    }}\n}}\n")
}

/// Makes the program; gives the command that runs it, a word to a line.
pub fn make(ffi: &Path, files: &BTreeSet<&str>, archive: &Path, out: &Path) -> Result<String, String> {
    let emulator = emulator().ok_or("no emulator for the archive's x86-64 code (qemu-x86_64)")?;
    let (file, program) = (out.join("bridge.c"), out.join("bridge"));
    fs::write(&file, source(ffi, files)).map_err(|e| e.to_string())?;
    let compiler = "x86_64-linux-gnu-gcc";
    let status = Command::new(compiler).args(["-O2", "-w", "-o"]).arg(&program).arg(&file).arg(archive).arg("-lm").status();
    match status {
        Ok(s) if s.success() => {}
        Ok(_) => return Err(format!("{compiler} failed on {}", file.display())),
        Err(e) => return Err(format!("{compiler}: {e} (Debian's package gcc-x86-64-linux-gnu)")),
    }
    // The folder above the C library that the compiler links with holds the loader as well.
    let asked = Command::new(compiler).arg("-print-file-name=libc.so.6").output().map_err(|e| e.to_string())?;
    let library = PathBuf::from(String::from_utf8_lossy(&asked.stdout).trim());
    let library = fs::canonicalize(&library).map_err(|e| format!("{}: {e}", library.display()))?;
    let prefix = library.ancestors().find(|a| a.join("lib64/ld-linux-x86-64.so.2").exists()).ok_or("no loader for x86-64")?;
    Ok(format!("{}\n-L\n{}\n{}", emulator.display(), prefix.display(), program.display()))
}
