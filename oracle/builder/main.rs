//! Builds the copies of the original (one for each parameter set), the driver that compares
//! them with the proved library's archive, and runs the driver. Compiled things are kept
//! under target/oracle and made again only when their text changes.

mod archive;
mod bridge;
mod declared;
mod interface;
mod offsets;
mod rules;

use rules::Set;
use std::collections::BTreeSet;
use std::fs;
use std::path::{Path, PathBuf};
use std::process::{exit, Command};
use std::sync::atomic::{AtomicUsize, Ordering};
use std::sync::Mutex;

/// The groups of comparisons, in port order.
const GROUPS: [&str; 16] =
    ["params", "utils", "product", "tlwe", "trlwe", "key", "rotation", "trgsw", "gates", "column", "circuit", "bristol", "encrypted", "drift", "drift_report", "tables"];

/// The files in ffi/ with the functions that a group needs: columns and encrypted runs are compared with single gates, drift runs with encrypted ones;
/// imported and exported circuits are run on plain bits, a circuit's work is held against the rotations of its runs, the drifts of drift runs are reported, and
/// what a table gives is decrypted.
fn declarations(group: &str) -> Vec<&str> {
    match group {
        "bristol" => vec!["circuit", "bristol"],
        "column" => vec!["gates", "column"],
        "encrypted" => vec!["gates", "circuit", "encrypted"],
        "drift" => vec!["gates", "circuit", "encrypted", "drift"],
        "drift_report" => vec!["drift", "drift_report"],
        "tables" => vec!["tlwe", "tables"],
        _ => vec![group],
    }
}

struct Options {
    root: PathBuf,
    original: PathBuf,
    archive: PathBuf,
    groups: Option<Vec<String>>,
    /// Groups whose functions the archive lacks are left out instead of being an error.
    offered: bool,
    sets: Option<Vec<String>>,
    rest: Vec<String>,
}

fn fail(why: &str) -> ! {
    eprintln!("oracle: {why}");
    exit(1)
}

fn options() -> Options {
    let mut args = std::env::args().skip(1);
    let root = PathBuf::from(args.next().unwrap_or_else(|| fail("no root folder")));
    let mut o = Options {
        original: root.join("../shared/docs/src"),
        archive: root.join("target/staticlib/libegl_c.a"),
        root,
        groups: None,
        offered: false,
        sets: None,
        rest: Vec::new(),
    };
    let list = |s: String| Some(s.split(',').map(String::from).collect());
    while let Some(a) = args.next() {
        let mut value = || args.next().unwrap_or_else(|| fail(&format!("{a} wants a value")));
        match a.as_str() {
            "--original" => o.original = value().into(),
            "--archive" => o.archive = value().into(),
            "--groups" => o.groups = list(value()),
            "--offered" => o.offered = true,
            "--sets" => o.sets = list(value()),
            _ => o.rest.push(a),
        }
    }
    o
}

fn sets(o: &Options) -> Vec<Set> {
    let text = fs::read_to_string(o.root.join("oracle/sets.txt")).unwrap_or_else(|e| fail(&format!("sets.txt: {e}")));
    let mut out = Vec::new();
    for line in text.lines().filter(|l| !l.starts_with('#') && !l.trim().is_empty()) {
        let words: Vec<&str> = line.split_whitespace().collect();
        let (six, groups) = words[1..].split_at_checked(6).unwrap_or_else(|| fail(line));
        let p: Vec<u32> = six.iter().map(|w| w.parse().unwrap_or_else(|_| fail(line))).collect();
        let (name, groups) = (words[0].to_string(), groups.iter().map(|g| g.to_string()).collect());
        if o.sets.as_ref().is_none_or(|s| s.contains(&name)) {
            out.push(Set { name, p: p.try_into().unwrap_or_else(|_| fail(line)), groups });
        }
    }
    out
}

/// The functions that a file in ffi/ declares: a group's own, which it has to see do their work.
fn own(o: &Options, file: &str) -> Vec<String> {
    let path = o.root.join(format!("oracle/driver/ffi/{file}.rs"));
    let text = fs::read_to_string(&path).unwrap_or_else(|e| fail(&format!("{}: {e}", path.display())));
    declared::harness(&text).into_iter().map(|f| f.name).collect()
}

/// The functions that a group needs.
fn functions(o: &Options, group: &str) -> Vec<String> {
    declarations(group).iter().flat_map(|file| own(o, file)).collect()
}

/// The asked groups, all of them unless some are named. A function that the archive lacks is an error, or with `--offered` leaves out its groups, and that is said.
fn groups(o: &Options, archive: &[u8]) -> Vec<String> {
    let names: BTreeSet<String> = archive::names(archive).into_iter().collect();
    if let Some(unknown) = o.groups.iter().flatten().find(|g| !GROUPS.contains(&g.as_str())) {
        fail(&format!("no group {unknown}"));
    }
    let mut out = Vec::new();
    for g in GROUPS.into_iter().filter(|g| o.groups.as_ref().is_none_or(|list| list.iter().any(|x| x == g))) {
        let lacks: Vec<String> = functions(o, g).into_iter().filter(|f| !names.contains(f)).collect();
        match (lacks.is_empty(), o.offered) {
            (true, _) => out.push(g.to_string()),
            (false, true) => println!("group {g} is left out: the archive lacks {}", lacks.join(", ")),
            (false, false) => fail(&format!("group {g}: the archive lacks {}", lacks.join(", "))),
        }
    }
    out
}

fn stamp(parts: &[&str]) -> String {
    let mut h = 0xcbf29ce484222325u64;
    for byte in parts.iter().flat_map(|p| p.bytes().chain([0])) {
        h = (h ^ byte as u64).wrapping_mul(0x100000001b3);
    }
    format!("{h:016x}")
}

/// Runs rustc for `out`, unless the stamp beside it tells that it was made from the same text.
fn compile(out: &Path, text: &str, args: &[String]) {
    let flags = args.join(" ");
    let mark = stamp(&[text, &flags]);
    let beside = out.with_extension("stamp");
    if out.exists() && fs::read_to_string(&beside).is_ok_and(|s| s == mark) {
        return;
    }
    let mut command = Command::new("rustc");
    command.args(["--edition", "2021", "-C", "overflow-checks=off", "-C", "debug-assertions=off", "-o"]);
    let status = command.arg(out).args(args).status();
    if !status.is_ok_and(|s| s.success()) {
        fail(&format!("rustc failed for {}", out.display()));
    }
    let _ = fs::write(beside, mark);
}

fn read_all(dir: &Path, text: &mut String) {
    let Ok(entries) = fs::read_dir(dir) else { return };
    let mut paths: Vec<PathBuf> = entries.flatten().map(|e| e.path()).collect();
    paths.sort();
    for p in paths {
        if p.is_dir() {
            read_all(&p, text);
        } else if let Ok(t) = fs::read_to_string(&p) {
            text.push_str(&t);
        }
    }
}

fn words(list: &[&str]) -> Vec<String> {
    list.iter().map(|s| s.to_string()).collect()
}

/// The crates that every copy shares: the generators' stand-ins and the trait.
fn shared(o: &Options, out: &Path) -> String {
    let mut all = String::new();
    for (name, file) in [("rand", "standin/rand.rs"), ("rand_distr", "standin/rand_distr.rs"), ("oracle_api", "api/lib.rs")] {
        let path = o.root.join("oracle").join(file);
        let text = fs::read_to_string(&path).unwrap_or_else(|e| fail(&format!("{file}: {e}")));
        let lib = out.join(format!("lib{name}.rlib"));
        compile(&lib, &text, &words(&["--crate-type", "rlib", "--crate-name", name, "-C", "opt-level=2", &path.to_string_lossy()]));
        all.push_str(&text);
    }
    all
}

/// One copy of the original for each set, two compilers at a time.
fn originals(o: &Options, sets: &[Set], out: &Path, common: &str) -> String {
    let next = AtomicUsize::new(0);
    let texts = Mutex::new(vec![String::new(); sets.len()]);
    let work = || loop {
        let i = next.fetch_add(1, Ordering::SeqCst);
        let Some(set) = sets.get(i) else { return };
        let dir = out.join("sets").join(&set.name);
        let text = rules::copy(&o.original, &o.root.join("oracle"), set, &dir).unwrap_or_else(|e| fail(&e));
        let lib = out.join(format!("libset_{}.rlib", set.name));
        let extern_of = |c: &str| format!("{c}={}/lib{c}.rlib", out.display());
        let source = dir.join("lib.rs");
        let mut args = words(&["--crate-type", "rlib", "--crate-name", &format!("set_{}", set.name), "-C", "opt-level=2"]);
        args.extend(words(&["-C", "codegen-units=1", "--cap-lints", "allow"]));
        args.extend(words(&["--cfg", "feature=\"lut-bootstrap\"", "--cfg", "feature=\"bootstrapping\""]));
        for c in ["rand", "rand_distr", "oracle_api"] {
            args.extend(["--extern".into(), extern_of(c)]);
        }
        args.push(source.to_string_lossy().into());
        compile(&lib, &(text.clone() + common), &args);
        texts.lock().unwrap()[i] = text;
    };
    std::thread::scope(|s| {
        s.spawn(work);
        s.spawn(work);
    });
    texts.into_inner().unwrap().concat()
}

/// The original's loop for the offset, for every BGBIT and L in range.
fn loops(o: &Options, out: &Path) -> String {
    let dir = out.join("offsets");
    let text = offsets::write(&o.original, &dir).unwrap_or_else(|e| fail(&e));
    let args = ["--crate-type", "rlib", "--crate-name", "offsets", "-C", "opt-level=2", "--cap-lints", "allow", &dir.join("lib.rs").to_string_lossy()].map(String::from);
    compile(&out.join("liboffsets.rlib"), &text, &args);
    text
}

/// The list of sets as the driver reads it, and the original's offset, where it is given.
fn list(sets: &[Set], given: bool) -> String {
    let mut text = String::from("pub fn sets() -> Vec<crate::case::Set> {\n    vec![\n");
    for s in sets {
        let original = if given { format!("Some(&set_{}::adapter::SET)", s.name) } else { "None".into() };
        text.push_str(&format!("        crate::case::Set {{ name: {:?}, p: {:?}, original: {original}, groups: &{:?} }},\n", s.name, s.p, s.groups));
    }
    let offset = if given { "offsets::offset(bgbit, l)" } else { "None" };
    text + &format!("    ]\n}}\npub fn original_offset(bgbit: u32, l: u32) -> Option<u32> {{\n    {offset}\n}}\n")
}

fn main() {
    let o = options();
    let out = o.root.join("target/oracle");
    let archive = fs::read(&o.archive).unwrap_or_else(|e| fail(&format!("no archive at {}: {e}", o.archive.display())));
    if o.rest == ["interface"] {
        exit(!interface::hold(&o.root, &archive) as i32)
    }
    let groups = groups(&o, &archive);
    let mut sets = sets(&o);
    sets.retain(|s| s.groups.is_empty() || s.groups.iter().any(|g| groups.contains(g)));
    let given = o.original.join("src/lib.rs").exists();
    let mut text = shared(&o, &out);
    if given {
        let common = text.clone();
        text.push_str(&originals(&o, &sets, &out, &common));
        text.push_str(&loops(&o, &out));
    } else {
        println!("The original is not at {}: the comparison with it is left out.", o.original.display());
    }
    let list = list(&sets, given);
    fs::write(out.join("sets.rs"), &list).unwrap_or_else(|e| fail(&e.to_string()));

    let driver = o.root.join("oracle/driver");
    read_all(&driver, &mut text);
    // the driver holds the version against the header
    read_all(&o.root.join("include"), &mut text);
    text.push_str(&list);
    let source = driver.join("main.rs");
    let mut args = words(&["--crate-name", "driver", "-C", "opt-level=3", "-A", "unused", &source.to_string_lossy()]);
    for g in &groups {
        args.extend(["--cfg".into(), format!("group_{g}")]);
    }
    args.extend(["-L".into(), out.to_string_lossy().into(), "--extern".into(), format!("oracle_api={}/liboracle_api.rlib", out.display())]);
    for s in sets.iter().filter(|_| given) {
        args.extend(["--extern".into(), format!("set_{}={}/libset_{}.rlib", s.name, out.display(), s.name)]);
    }
    if given {
        args.extend(["--extern".into(), format!("offsets={}/liboffsets.rlib", out.display())]);
    }
    if bridge::needed(&archive) {
        args.extend(words(&["--cfg", "bridge"]));
        let files: BTreeSet<&str> = groups.iter().flat_map(|g| declarations(g)).collect();
        let command = bridge::make(&driver.join("ffi"), &files, &o.archive, &out).unwrap_or_else(|e| fail(&e));
        std::env::set_var("ORACLE_BRIDGE", command);
    } else {
        args.extend(["-C".into(), format!("link-arg={}", o.archive.display()), "-C".into(), "link-arg=-lm".into()]);
        text.push_str(&String::from_utf8_lossy(&archive));
    }
    std::env::set_var("ORACLE_SETS", out.join("sets.rs"));
    let names: BTreeSet<String> = groups.iter().flat_map(|g| own(&o, g)).collect();
    std::env::set_var("ORACLE_FUNCTIONS", names.into_iter().collect::<Vec<_>>().join(","));
    let binary = out.join("driver");
    compile(&binary, &text, &args);
    let status = Command::new(&binary).args(&o.rest).status();
    exit(status.ok().and_then(|s| s.code()).unwrap_or(1))
}
