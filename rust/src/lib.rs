//! Safe Rust over `libegl_c.a`, the proved evaluator of encrypted gates.
//!
//! The archive does the work and is proved: every call takes any numbers and any slices, does its work or gives one of thirteen numbered
//! refusals, and a refused call has written to none of the memory lent to it. This crate turns lengths and pointers into slices, numbers into
//! [`Refusal`], and adds what the archive leaves to its caller: memory, random numbers and noise. What it adds is ordinary Rust and not
//! proved: [`Random`], [`Noise`] and the drawing of keys, [`Builder`], the order in which [`Circuit`] and its runner lend slices, how
//! [`CloudKey::column_in_threads`] cuts a column, what [`Kind`] and [`Gate`] tell of themselves, [`Circuit::work_to`] by it, how a [`DriftReport`] is
//! printed, and which words [`Table`] writes for messages and bits.
//!
//! Two ways to call:
//!
//! * everything lent: [`lent`] for encryption, decryption, sums and generation of keys, [`CloudKey`] for gates, columns of them and lookups. Nothing is drawn, and nothing
//!   allocated but by [`CloudKey::evaluate`] and the others whose names start so, which make the place of their result, by [`Table`], which keeps its words, and by threads.
//! * drawn and owned: [`SecretKeys`] and [`OwnedCloudKey`] draw keys, masks and noise from a source that the caller gives.
//!
//! ```no_run
//! use egl::{sets, Gate, OwnedCloudKey, SecretKeys, SystemRandom};
//!
//! fn main() -> Result<(), Box<dyn std::error::Error>> {
//!     let set = sets::SECURITY_128;
//!     let mut random = SystemRandom::open()?;
//!     let secret = SecretKeys::draw(set.params, &mut random)?;
//!     let cloud = OwnedCloudKey::draw(&secret, set.noise, &mut random)?;
//!     let a = secret.encrypt_bit(true, set.noise, &mut random)?;
//!     let b = secret.encrypt_bit(false, set.noise, &mut random)?;
//!     let out = cloud.view().evaluate(Gate::Nand, &[&a, &b])?;
//!     assert!(secret.decrypt_bit(&out)?);
//!     Ok(())
//! }
//! ```
//!
//! A ciphertext is a slice of n + 1 words (`u32`, each counting 2^-32 of a turn), the last of which is b.
//!
//! A stored cloud key is taken by [`OwnedCloudKey::from_words`], and one that was stored up to version 5 of the interface, when the switching key had idle rows, by
//! [`OwnedCloudKey::from_former_words`]. The lengths tell them apart: each way refuses the other's with 2.
//!
//! The same gate on many pairs is one call, [`CloudKey::column`], or [`CloudKey::column_in_threads`] over several processors and with progress:
//!
//! ```no_run
//! use egl::{CloudKey, Kind, Refusal};
//!
//! /// Whether bits are alike, pair by pair; `pairs` has the two ciphertexts of each pair one after another.
//! fn alike(key: CloudKey<'_>, pairs: &[u32], threads: usize) -> Result<Vec<u32>, Refusal> {
//!     let one = key.lengths().ciphertext;
//!     let count = pairs.len() / (2 * one);
//!     let mut out = vec![0; count * one];
//!     key.column_in_threads(Kind::Xnor, count, pairs, &mut out, threads, |p| eprintln!("{} of {}", p.done, p.total))?;
//!     Ok(out)
//! }
//! ```
//!
//! Circuits are built by [`Builder`], taken as bytes, or exchanged with other tools as text in the Bristol Fashion form: [`Circuit::from_bristol`] and
//! [`Circuit::to_bristol`].
//!
//! Whoever holds the secret keys can have a circuit run with its drift, how far each wire's phase is from what it carries: [`Circuit::evaluate_drift`], or
//! [`DriftRun`] gate by gate with the margin that is left. A run that is told inside has the right outputs; that is proved, for any keys and noise.
//!
//! A report tells of many wires how large their drifts were: [`DriftReport`] counts them by size in bits and has the largest. The library counts, and it merges the
//! reports of many runs; as text a report is a line, a table, a bar chart or CSV.
//!
//! ```no_run
//! use egl::{DriftReport, DriftRun, Refusal};
//!
//! /// One report of all runs, printed as a line and as a chart. It is refused with 13 where they have more than 65,535 wires in all.
//! fn report_of(runs: &[DriftRun<'_>]) -> Result<DriftReport, Refusal> {
//!     let mut all = DriftReport::empty();
//!     for run in runs {
//!         all.absorb(&run.report()?)?;
//!     }
//!     print!("{all}\n{}", all.chart(50));
//!     Ok(all)
//! }
//! ```
//!
//! It speaks of wires and not of what is brought into rotations: that a run's outputs are right, [`DriftRun::inside`] tells.
//!
//! Small messages, of modulus 2 to 64, go through tables: a [`Table`] is made of a closure on small numbers, and [`CloudKey::lookup`] evaluates it on an encrypted message by one
//! rotation, whatever the closure. Messages are added beforehand for nothing ([`CloudKey::evaluate_sum`]), tables chain, and a table of bits ends where gates take over:
//!
//! ```no_run
//! use egl::{CloudKey, Refusal, Table};
//!
//! /// Whether a is lower than b, as a bit for gates. Both are digits from 0 to 3, encrypted as messages of modulus 8: 3 + a - b is from 0 to 6.
//! fn lower(key: CloudKey<'_>, a: &[u32], b: &[u32]) -> Result<Vec<u32>, Refusal> {
//!     let difference = key.evaluate_sum(8, 3, &[(1, a), (-1, b)])?;
//!     key.evaluate_lookup(&Table::bits(8, |m| m < 3)?, &difference)
//! }
//! ```
//!
//! Whether a set has margin enough for a modulus, [`CloudKey::lookup_drift`] tells whoever holds the secret keys.
//!
//! No call of this crate panics, whatever it is given. The time that drawing takes depends on what is drawn, and memory that held
//! secret keys is not wiped.

#![deny(missing_docs, unsafe_code, unsafe_op_in_unsafe_fn)]
#![deny(clippy::unwrap_used, clippy::expect_used, clippy::panic, clippy::indexing_slicing, clippy::arithmetic_side_effects)]

mod bristol;
mod builder;
mod circuit;
mod cloud;
mod column;
mod drift;
mod drift_report;
mod drift_report_text;
mod drift_run;
mod error;
mod ffi;
mod gate;
mod kind;
pub mod lent;
mod lookup;
mod noise;
mod params;
mod random;
mod refusal;
mod run;
mod secret;
pub mod sets;
mod sum;
mod table;
mod version;

pub use builder::{Builder, Wire};
pub use circuit::Circuit;
pub use cloud::{CloudKey, OwnedCloudKey};
pub use drift::{inside, margin, size, Drifts, Secrets};
pub use drift_report::DriftReport;
pub use drift_run::{DriftRun, GateDrift};
pub use error::Error;
pub use gate::Gate;
pub use kind::Kind;
pub use lookup::LookupDrift;
pub use noise::Noise;
pub use params::{Lengths, Params};
pub use random::{Random, SystemRandom};
pub use refusal::Refusal;
pub use run::{Progress, Run};
pub use secret::SecretKeys;
pub use table::{message_margin, message_word, Table};
pub use version::{archive_version, INTERFACE_VERSION};
