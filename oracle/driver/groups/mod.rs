//! The groups of comparisons. A group runs once, or once for each set.

#[cfg(group_bristol)]
pub mod bristol;
#[cfg(group_bristol)]
mod bristol_limits;
#[cfg(group_circuit)]
pub mod circuit;
#[cfg(group_column)]
pub mod column;
#[cfg(group_column)]
mod column_lengths;
#[cfg(group_drift)]
pub mod drift;
#[cfg(group_drift)]
mod drift_circuits;
#[cfg(group_drift_report)]
pub mod drift_report;
#[cfg(group_drift_report)]
mod drift_report_merges;
#[cfg(group_encrypted)]
pub mod encrypted;
// columns and encrypted runs are compared with single gates, and drift runs share their slots
#[cfg(any(group_gates, group_column, group_encrypted, group_drift))]
pub mod gates;
#[cfg(group_key)]
pub mod key;
#[cfg(group_key)]
mod key_rows;
#[cfg(group_params)]
pub mod params;
#[cfg(group_product)]
pub mod product;
#[cfg(group_rotation)]
pub mod rotation;
#[cfg(group_tables)]
pub mod tables;
#[cfg(group_tables)]
mod tables_messages;
#[cfg(group_tables)]
mod tables_original;
#[cfg(group_tables)]
mod tables_refusals;
#[cfg(group_tlwe)]
pub mod tlwe;
#[cfg(group_trgsw)]
pub mod trgsw;
#[cfg(group_trlwe)]
pub mod trlwe;
#[cfg(group_utils)]
pub mod utils;
// encrypted runs and drift runs count their rotations
#[cfg(any(group_encrypted, group_drift))]
mod work;

use crate::case::{Routine, Set};
use crate::compare::Tally;

/// The number that the header defines under a name.
pub fn stated(name: &str) -> Option<u32> {
    let header = include_str!("../../../include/egl.h");
    header.lines().find_map(|line| line.strip_prefix(&format!("#define {name} "))).and_then(|word| word.parse().ok())
}

/// How often a group runs.
pub enum Run {
    Once(fn(&[Set], &mut Tally)),
    EachSet(fn(&Set, &mut Tally)),
}

pub struct Group {
    pub name: &'static str,
    pub run: Run,
    /// The routines whose cases can be listed.
    pub routines: &'static [Routine],
}

/// The groups that the archive offers, in port order.
#[rustfmt::skip]
pub fn groups() -> Vec<Group> {
    vec![
        #[cfg(group_params)]
        Group { name: "params", run: Run::Once(params::run), routines: &params::ROUTINES },
        #[cfg(group_utils)]
        Group { name: "utils", run: Run::Once(utils::run), routines: &[] },
        #[cfg(group_product)]
        Group { name: "product", run: Run::Once(product::run), routines: &product::ROUTINES },
        #[cfg(group_tlwe)]
        Group { name: "tlwe", run: Run::EachSet(tlwe::run), routines: &tlwe::ROUTINES },
        #[cfg(group_trlwe)]
        Group { name: "trlwe", run: Run::EachSet(trlwe::run), routines: &trlwe::ROUTINES },
        #[cfg(group_key)]
        Group { name: "key", run: Run::EachSet(key::run), routines: &key::ROUTINES },
        #[cfg(group_rotation)]
        Group { name: "rotation", run: Run::EachSet(rotation::run), routines: &rotation::ROUTINES },
        #[cfg(group_trgsw)]
        Group { name: "trgsw", run: Run::EachSet(trgsw::run), routines: &trgsw::ROUTINES },
        #[cfg(group_gates)]
        Group { name: "gates", run: Run::EachSet(gates::run), routines: &gates::ROUTINES },
        #[cfg(group_column)]
        Group { name: "column", run: Run::EachSet(column::run), routines: &column::ROUTINES },
        #[cfg(group_circuit)]
        Group { name: "circuit", run: Run::Once(circuit::run), routines: &[] },
        #[cfg(group_bristol)]
        Group { name: "bristol", run: Run::Once(bristol::run), routines: &[] },
        #[cfg(group_encrypted)]
        Group { name: "encrypted", run: Run::EachSet(encrypted::run), routines: &[] },
        #[cfg(group_drift)]
        Group { name: "drift", run: Run::EachSet(drift::run), routines: &[] },
        #[cfg(group_drift_report)]
        Group { name: "drift_report", run: Run::Once(drift_report::run), routines: &[] },
        #[cfg(group_tables)]
        Group { name: "tables", run: Run::EachSet(tables::run), routines: &tables::ROUTINES },
    ]
}

/// Whether sums of the original's transform stay so small that its rounding gives the exact
/// words: digits, words read as signed, N terms and 2L products below 2^47 in all.
pub fn fine(p: &[u32; 6]) -> bool {
    31 + (p[2] - 1) + p[1] + (2 * p[3]).next_power_of_two().trailing_zeros() <= 47
}
