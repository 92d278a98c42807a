//! The work that the library tells of a circuit beside the blind rotations of a run, for the groups that run one.

use crate::case::Arg;
use crate::compare::Tally;
use crate::ffi::circuit::egl_circuit_work;

/// A valid circuit, and how many rotations its run performed; the work stands in the answer's high half.
pub fn rotations_are(tally: &mut Tally, bytes: &[u8], rotations: usize) {
    let told = egl_circuit_work(&mut [Arg::Bytes(bytes.to_vec())]);
    tally.same(told == (rotations as u64) << 32, || format!("work {told:#x}, where a run made {rotations} rotations"));
}
