//! Holds the texts of the C interface against each other: include/egl.h, egl_c's source, the archive's names, the wrapper's and the harness's declarations.
//! A proof speaks of one function of the source at a time: that C calls it by this name, with these arguments in this order, is what is held here.

use crate::archive;
use crate::declared::{self, Function};
use std::collections::BTreeSet;
use std::fs;
use std::path::{Path, PathBuf};

/// The texts of the files of a folder that end so, in order.
fn texts(folder: &Path, ending: &str) -> Vec<String> {
    let mut paths: Vec<PathBuf> = fs::read_dir(folder).into_iter().flatten().flatten().map(|e| e.path()).collect();
    paths.sort();
    paths.iter().filter(|p| p.to_string_lossy().ends_with(ending)).filter_map(|p| fs::read_to_string(p).ok()).collect()
}

fn names(list: &[Function]) -> BTreeSet<&str> {
    list.iter().map(|f| f.name.as_str()).collect()
}

/// A line for each name that one side has and the other lacks.
fn apart(here: (&str, &BTreeSet<&str>), there: (&str, &BTreeSet<&str>), faults: &mut Vec<String>) {
    faults.extend(here.1.difference(there.1).map(|name| format!("{name}: in {}, not in {}", here.0, there.0)));
    faults.extend(there.1.difference(here.1).map(|name| format!("{name}: in {}, not in {}", there.0, here.0)));
}

/// A line for each function of the list that the header declares otherwise, or twice, or not at all.
fn alike(place: &str, list: &[Function], header: &[Function], faults: &mut Vec<String>) {
    for f in list {
        match header.iter().find(|h| h.name == f.name) {
            None => faults.push(format!("{}: in {place}, not in include/egl.h", f.name)),
            Some(h) if h != f => faults.push(format!("{place} declares {}\n    include/egl.h has {}", f.text(), h.text())),
            _ => {}
        }
    }
    let twice = list.iter().filter(|f| list.iter().filter(|g| g.name == f.name).count() > 1);
    faults.extend(twice.map(|f| format!("{}: twice in {place}", f.name)));
}

/// The harness names no parameters, and every result crosses it as 64 bits unless it says otherwise.
fn kinds_alike(list: &[Function], header: &[Function], faults: &mut Vec<String>) {
    for f in list {
        let Some(h) = header.iter().find(|h| h.name == f.name) else { continue };
        if h.types() != f.types() || (!f.result.is_empty() && h.result != f.result) {
            faults.push(format!("the harness declares {}\n    include/egl.h has {}", f.text(), h.text()));
        }
    }
}

/// Every way in which the texts differ; the number of functions that they agree on.
fn faults(root: &Path, archive: &[u8]) -> (Vec<String>, usize) {
    let read = |path: &str| fs::read_to_string(root.join(path)).unwrap_or_default();
    let sources = texts(&root.join("crates/egl_c/src"), ".rt");
    let header = declared::header(&read("include/egl.h"));
    let exports: Vec<Function> = sources.iter().flat_map(|text| declared::exports(text)).collect();
    let harness: Vec<Function> = texts(&root.join("oracle/driver/ffi"), ".rs").iter().flat_map(|text| declared::harness(text)).collect();
    let wrapper = declared::linked(&read("rust/src/ffi.rs"));
    let offered = archive::names(archive);

    let mut faults = Vec::new();
    // a function is exported by two marks on two lines: one without the other is a slip
    for mark in ["#[unsafe(no_mangle)]", "extern \"C\" fn "] {
        let count: usize = sources.iter().map(|text| text.matches(mark).count()).sum();
        if count != exports.len() {
            faults.push(format!("egl_c's source has {count} times {mark}, and {} exports", exports.len()));
        }
    }
    alike("egl_c's source", &exports, &header, &mut faults);
    alike("include/egl.h", &header, &header, &mut faults);
    alike("the wrapper", &wrapper, &header, &mut faults);
    kinds_alike(&harness, &header, &mut faults);
    apart(("include/egl.h", &names(&header)), ("egl_c's source", &names(&exports)), &mut faults);
    apart(("include/egl.h", &names(&header)), ("the harness", &names(&harness)), &mut faults);
    let offered: BTreeSet<&str> = offered.iter().map(String::as_str).filter(|name| name.starts_with("egl_")).collect();
    apart(("include/egl.h", &names(&header)), ("the archive", &offered), &mut faults);
    if wrapper.is_empty() {
        faults.push("the wrapper declares nothing".to_string());
    }
    faults.sort();
    faults.dedup();
    (faults, header.len())
}

/// Prints every fault, or how many functions all texts agree on; whether there is none.
pub fn hold(root: &Path, archive: &[u8]) -> bool {
    let (faults, functions) = faults(root, archive);
    faults.iter().for_each(|fault| println!("interface: {fault}"));
    println!("interface: {functions} functions, {} faults", faults.len());
    faults.is_empty()
}
