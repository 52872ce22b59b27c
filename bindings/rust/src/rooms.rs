//! How much room a run asks for. More than 10 rounds have room 0; the calls refuse them by number.
use crate::{
    ffi,
    modes::{self, Sum, Version},
};

/// The rounds of so many rows: 0 for none and for one, 11 for a number of rows that is refused.
pub fn rounds(rows: usize) -> usize {
    unsafe { ffi::accudrina_rounds(rows) }
}

/// The bytes of a proof.
pub fn proof_bytes(rounds: usize) -> usize {
    unsafe { ffi::accudrina_proof_bytes(rounds) }
}

/// The words of the point.
pub fn point_words(rounds: usize) -> usize {
    unsafe { ffi::accudrina_point_words(rounds) }
}

/// The words of the log; the verifier's is that of an asserted zero sum, and of the proof's own version ([`Version::of`]).
pub fn log_words(rounds: usize, sum: Sum, version: Version) -> usize {
    unsafe { ffi::accudrina_log_words(rounds, modes::logging(sum, version)) }
}

/// The words of the prover's workspace.
pub fn workspace_words(rounds: usize) -> usize {
    unsafe { ffi::accudrina_workspace_words(rounds) }
}

/// The words of the challenges, four for each that is drawn.
pub fn challenge_words(rounds: usize) -> usize {
    unsafe { ffi::accudrina_challenge_words(rounds) }
}
