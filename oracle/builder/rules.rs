//! Makes a compilable copy of the original for one parameter set, by rules on its text.
//! A rule that does not find what it is meant for is an error: the folder has changed.

use std::fs;
use std::path::Path;

pub struct Set {
    pub name: String,
    /// n, NBIT, BGBIT, L, BASEBIT, T.
    pub p: [u32; 6],
    /// The groups that run at it; all of them where none is named.
    pub groups: Vec<String>,
}

/// The modules that are taken as they are.
const PLAIN: [&str; 7] =
    ["utils.rs", "key.rs", "gates.rs", "fft/mod.rs", "parallel/mod.rs", "bootstrap/mod.rs", "bootstrap/vanilla.rs"];

/// Modules that the original names and nothing here calls: left empty.
const EMPTY: [&str; 3] = ["bit_utils.rs", "lut.rs", "bootstrap/lut.rs"];

/// Writes the copy below `out`, and gives all of its text for the stamp.
pub fn copy(original: &Path, stand_ins: &Path, set: &Set, out: &Path) -> Result<String, String> {
    let from = original.join("src");
    let mut files: Vec<(String, String)> = Vec::new();
    for name in PLAIN {
        files.push((name.into(), read(&from.join(name))?));
    }
    for name in EMPTY {
        files.push((name.into(), "//! Not given, and not needed.\n".into()));
    }
    files.push(("fft/klemsa.rs".into(), read(&stand_ins.join("standin/klemsa.rs"))?));
    files.push(("parallel/rayon_impl.rs".into(), read(&stand_ins.join("standin/rayon_impl.rs"))?));
    files.push(("adapter.rs".into(), read(&stand_ins.join("api/adapter.rs"))?));
    files.push(("lib.rs".into(), read(&from.join("lib.rs"))? + "\npub mod adapter;\npub mod tlwe_one;\n"));
    files.push(("params.rs".into(), constants(&read(&from.join("params.rs"))?, set)?));

    // The level-1 methods serve the original's tests alone; they are wanted here.
    let tlwe = swapped(&read(&from.join("tlwe.rs"))?, "#[cfg(test)]", "", 3)?;
    let one = swapped(&tlwe, "params::tlwe_lv0", "params::tlwe_lv1", 1)?;
    files.push(("tlwe_one.rs".into(), swapped(&one, "SecretKeyLv0", "SecretKeyLv1", 1)?));
    files.push(("tlwe.rs".into(), tlwe));

    // Rows are compared as words, so the two private fields that hold them are opened.
    let trgsw = literals(&read(&from.join("trgsw.rs"))?, set)?;
    let trgsw = swapped(&trgsw, "\n  trlwe: [trlwe::TRLWELv1;", "\n  pub trlwe: [trlwe::TRLWELv1;", 1)?;
    let trgsw = swapped(&trgsw, "\n  trlwe_fft: [", "\n  pub trlwe_fft: [", 1)?;
    files.push(("trgsw.rs".into(), trgsw));
    files.push(("trlwe.rs".into(), literals(&read(&from.join("trlwe.rs"))?, set)?));

    let mut all = String::new();
    for (name, text) in &files {
        let path = out.join(name);
        fs::create_dir_all(path.parent().unwrap()).map_err(|e| e.to_string())?;
        fs::write(&path, text).map_err(|e| format!("{}: {e}", path.display()))?;
        all.push_str(text);
    }
    Ok(all)
}

pub fn read(path: &Path) -> Result<String, String> {
    fs::read_to_string(path).map_err(|e| format!("{}: {e}", path.display()))
}

/// Every `old` becomes `new`; there must be at least `least` of them.
fn swapped(text: &str, old: &str, new: &str, least: usize) -> Result<String, String> {
    if text.matches(old).count() < least {
        return Err(format!("fewer than {least} times in the original: {old:?}"));
    }
    Ok(text.replace(old, new))
}

/// The literals 1024 and 512, where they stand as numbers of their own, follow N.
fn literals(text: &str, set: &Set) -> Result<String, String> {
    let n = 1u32 << set.p[1];
    let mut out = String::new();
    let mut word = String::new();
    let mut met = 0;
    for c in text.chars().chain(std::iter::once('\n')) {
        if c.is_alphanumeric() || c == '_' {
            word.push(c);
            continue;
        }
        match word.as_str() {
            "1024" => out.push_str(&n.to_string()),
            "512" => out.push_str(&(n / 2).to_string()),
            _ => out.push_str(&word),
        }
        met += (word == "1024") as u32;
        word.clear();
        out.push(c);
    }
    if met == 0 { Err("no literal 1024 in the original".into()) } else { Ok(out) }
}

/// The default set's constants become those of `set`.
pub fn constants(text: &str, set: &Set) -> Result<String, String> {
    let head = "pub const SECURITY_128_BIT: SecurityParams = SecurityParams {";
    let start = text.find(head).ok_or("no SECURITY_128_BIT in the original")?;
    let end = start + text[start..].find("\n};").ok_or("no end of SECURITY_128_BIT")?;
    let [n, nbit, bgbit, l, basebit, t] = set.p;
    let mut level_zero = false;
    let mut swaps = 0;
    let mut block = String::new();
    for line in text[start..end].lines() {
        if line.trim_end().ends_with('{') {
            level_zero = line.contains("tlwe_lv0");
        }
        let value = match line.trim().split(':').next().unwrap_or("") {
            "n" => Some(if level_zero { n } else { 1 << nbit }),
            "nbit" => Some(nbit),
            "bgbit" => Some(bgbit),
            "bg" => Some(1 << bgbit),
            "l" => Some(l),
            "basebit" => Some(basebit),
            "iks_t" => Some(t),
            _ => None,
        };
        match value {
            Some(v) => {
                block.push_str(&format!("{}: {v},\n", line.split(':').next().unwrap()));
                swaps += 1;
            }
            None => block.push_str(&format!("{line}\n")),
        }
    }
    if swaps != 10 {
        return Err(format!("{swaps} constants of SECURITY_128_BIT found, 10 wanted"));
    }
    Ok(format!("{}{}{}", &text[..start], block.trim_end_matches('\n'), &text[end..]))
}
