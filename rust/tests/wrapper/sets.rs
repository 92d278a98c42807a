//! The published sets, held against the proved definitions and, where it is there, against the original's text.

use egl::sets::{by_name, Set, PRACTICE, PUBLISHED};
use egl::Params;

/// The definitions that the proofs cite.
const PROVED: &str = include_str!("../../../crates/params/specs/Published.antt");

/// The header, which names the same sets for C.
const HEADER: &str = include_str!("../../../include/egl.h");

fn numbers(params: Params) -> [u32; 6] {
    [params.n, params.nbit, params.bgbit, params.l, params.basebit, params.t]
}

/// The name in specs/Published.antt, which the set's name ends.
fn proved_name(set: &Set) -> String {
    if set.name.starts_with("uint") {
        set.name.to_string()
    } else {
        format!("security{}", set.name)
    }
}

#[test]
fn sets_are_those_of_the_proofs() {
    for set in &PUBLISHED {
        let start = format!("{} = numbers ", proved_name(set));
        let line = PROVED.lines().find_map(|line| line.strip_prefix(&start)).unwrap_or_else(|| panic!("{} is not among the definitions", set.name));
        let proved: Vec<u32> = line.split_whitespace().map(|word| word.parse().unwrap()).collect();
        assert_eq!(proved, numbers(set.params), "{}", set.name);
    }
    // Every published set in range is here: the definitions have two more, and both are refused.
    let outside: Vec<Params> = PROVED
        .lines()
        .filter_map(|line| line.split_once(" = numbers "))
        .filter(|(name, _)| PUBLISHED.iter().all(|set| proved_name(set) != *name))
        .map(|(_, line)| line.split_whitespace().map(|word| word.parse().unwrap()).collect::<Vec<u32>>())
        .map(|v| Params::new(v[0], v[1], v[2], v[3], v[4], v[5]))
        .collect();
    assert_eq!(outside.len(), 2);
    assert!(outside.iter().all(|params| params.check().is_err()));
}

/// The first number after `field:` in the text.
fn field(text: &str, field: &str) -> f64 {
    let after = text.split(&format!("{field}: ")).nth(1).unwrap_or_else(|| panic!("no {field}"));
    let number: String = after.chars().take_while(|c| !matches!(c, ',' | '\n')).filter(|c| *c != '_').collect();
    number.trim().parse().unwrap()
}

#[test]
fn sets_are_those_of_the_original() {
    let folder = std::env::var("EGL_ORIGINAL").unwrap_or_else(|_| "../../shared/docs/src".to_string());
    let text = match std::fs::read_to_string(format!("{folder}/src/params.rs")) {
        Ok(text) => text,
        Err(_) => return eprintln!("the original's params.rs is not there: its numbers are not compared"),
    };
    for set in &PUBLISHED {
        let name = if set.name.starts_with("uint") { format!("SECURITY_{}", set.name.to_uppercase()) } else { format!("SECURITY_{}_BIT", set.name) };
        let start = text.find(&format!("pub const {name}: SecurityParams")).unwrap_or_else(|| panic!("no {name}"));
        let part = &text[start..start + text[start..].find("};").unwrap()];
        let level0 = &part[part.find("tlwe_lv0").unwrap()..];
        let level1 = &part[part.find("tlwe_lv1").unwrap()..];
        let ring = &part[part.find("trgsw_lv1").unwrap()..];
        let original = [field(level0, "n"), field(ring, "nbit"), field(ring, "bgbit"), field(ring, " l"), field(ring, "basebit"), field(ring, "iks_t")];
        assert_eq!(original, numbers(set.params).map(f64::from), "{}", set.name);
        assert_eq!(
            (field(level0, "alpha"), field(level1, "alpha"), field(ring, "alpha")),
            (set.noise.level0(), set.noise.level1(), set.noise.level1()),
            "{}",
            set.name
        );
    }
}

/// What the header defines a name as.
fn defined(name: &str) -> Option<&'static str> {
    HEADER.lines().find_map(|line| line.strip_prefix("#define ")?.strip_prefix(name)?.strip_prefix(' '))
}

#[test]
fn sets_are_those_of_the_header() {
    for set in &PUBLISHED {
        let name = format!("EGL_SET_{}", set.name.to_uppercase());
        let six: Vec<u32> = defined(&name).unwrap_or_default().split(", ").filter_map(|word| word.parse().ok()).collect();
        assert_eq!(six, numbers(set.params), "{name}");
        for (level, noise) in [("LV0", set.noise.level0()), ("LV1", set.noise.level1())] {
            assert_eq!(defined(&format!("{name}_NOISE_{level}")).and_then(|word| word.parse().ok()), Some(noise), "{name} {level}");
        }
    }
    // Each set has three lines.
    assert_eq!(HEADER.matches("#define EGL_SET_").count(), 3 * PUBLISHED.len());
}

#[test]
fn lengths_are_the_documents() {
    let lengths = by_name("128").unwrap().params.lengths().unwrap();
    assert_eq!((lengths.ciphertext, lengths.polynomial, lengths.secret_level0, lengths.secret_level1), (701, 1024, 700, 1024));
    assert_eq!((lengths.switching_rows, lengths.switching_key, lengths.former_switching_key), (3 * 9 * 1024, 3 * 9 * 1024 * 701, 4 * 9 * 1024 * 701));
    assert_eq!((lengths.switching_masks, lengths.switching_noise), (3 * 9 * 1024 * 700, 3 * 9 * 1024));
    assert_eq!((lengths.bootstrapping_key, lengths.bootstrapping_masks, lengths.bootstrapping_noise), (700 * 6 * 2048, 700 * 6 * 1024, 700 * 6 * 1024));
    // The longest keys in range.
    let longest = Params::new(1100, 10, 1, 32, 6, 5).lengths().unwrap();
    assert_eq!((longest.switching_key, longest.former_switching_key), (63 * 5 * 1024 * 1101, 64 * 5 * 1024 * 1101));
    assert_eq!(longest.bootstrapping_key, 1100 * 64 * 2048);
}

#[test]
fn names_find_their_sets() {
    for set in PUBLISHED.iter().chain(&[PRACTICE]) {
        assert_eq!(by_name(set.name), Some(*set));
        assert_eq!(set.params.check(), Ok(()));
    }
    assert_eq!(by_name("uint7"), None);
}
