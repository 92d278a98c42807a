//! The wrapper's tests. They run at small parameter sets and with fixed seeds, so that a failure can be repeated.

mod bristol;
mod builder;
mod circuits;
mod column;
mod drift;
mod drift_report;
mod drift_report_text;
mod encrypted_runs;
mod gates;
mod keys;
mod lookup_drift;
mod lookups;
mod noise;
mod refusals;
mod seeded;
mod sets;
mod tables;
mod version;
