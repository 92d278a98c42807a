//! The original's loop for the decomposition offset, compiled once for each BGBIT and L in range: its own function and constants, a module for each pair,
//! all in one crate. The sets of sets.txt have some of these pairs; here are all.

use crate::rules::{constants, read, Set};
use std::fs;
use std::path::Path;

/// Every BGBIT and L that document 01 allows: BGBIT 1 to 24, L at least 1, L·BGBIT at most 32.
fn pairs() -> Vec<(u32, u32)> {
    (1..=24).flat_map(|bgbit| (1..=32 / bgbit).map(move |l| (bgbit, l))).collect()
}

fn module(bgbit: u32, l: u32) -> String {
    format!("bgbit{bgbit}_l{l}")
}

/// The text of the original's function, from its head to the brace that ends it.
fn function(key: &str) -> Result<&str, String> {
    let start = key.find("pub fn gen_decomposition_offset() -> Torus {").ok_or("no gen_decomposition_offset in the original")?;
    let end = key[start..].find("\n}\n").ok_or("no end of gen_decomposition_offset")?;
    Ok(&key[start..start + end + 3])
}

/// Writes the crate below `out`, and gives all of its text for the stamp.
pub fn write(original: &Path, out: &Path) -> Result<String, String> {
    let params = read(&original.join("src/params.rs"))?;
    let key = read(&original.join("src/key.rs"))?;
    let function = function(&key)?;
    let save = |name: String, text: &str| {
        let path = out.join(name);
        fs::create_dir_all(path.parent().unwrap()).map_err(|e| e.to_string())?;
        fs::write(&path, text).map_err(|e| format!("{}: {e}", path.display()))
    };
    let (mut lib, mut table) = (String::new(), String::new());
    let mut all = String::new();
    for (bgbit, l) in pairs() {
        let name = module(bgbit, l);
        let set = Set { name: name.clone(), p: [1, 1, bgbit, l, 1, 1], groups: Vec::new() };
        let own = format!("pub mod params;\nuse params::{{Torus, TORUS_SIZE}};\n\n{function}");
        let constants = constants(&params, &set)?;
        save(format!("{name}.rs"), &own)?;
        save(format!("{name}/params.rs"), &constants)?;
        lib.push_str(&format!("mod {name};\n"));
        table.push_str(&format!("        ({bgbit}, {l}) => Some({name}::gen_decomposition_offset()),\n"));
        all.push_str(&own);
        all.push_str(&constants);
    }
    lib.push_str(&format!("\npub fn offset(bgbit: u32, l: u32) -> Option<u32> {{\n    match (bgbit, l) {{\n{table}        _ => None,\n    }}\n}}\n"));
    save("lib.rs".into(), &lib)?;
    Ok(all + &lib)
}
