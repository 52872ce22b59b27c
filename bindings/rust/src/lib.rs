//! A prover and a verifier for sums of fractions, proved in Rattle and called from Rust.
//!
//! [`prove`], [`verify`] and [`read_sheet`] make their buffers; the `_into` forms take them lent, and [`rooms`] says how long they
//! must be. [`replay`] gives the verdict again from a stored log alone. [`evaluate`] gives the values of a sheet that the claims of an accepted proof are compared with. Every call ends with an answer for all bytes, words and lengths; what is refused says why, and [`Used`] tells what a run used up. Calls share no state, so any
//! number of threads may call at once.
//!
//! A verdict is not yet a result. Where the challenges are supplied, whoever knows them can make a proof of a false sum that is
//! accepted ([`Challenges::Drawn`] are not known before); and in [`Mode::Sandbox`] a proof whose `q0` is zero is accepted and says nothing about the rows. What an accepted proof says,
//! and what it does not, stands in the repository's `docs/WHAT-A-PROOF-SAYS.md`: read it before you file one.

mod element;
mod ffi;
mod lent;
mod modes;
mod owned;
mod refusal;
pub mod rooms;
mod used;

pub use element::{elements_of, row_words, words_of, Element, Fraction, PRIME};
pub use lent::{evaluate_words, prove_into, read_sheet_into, replay_into, verify_into, Claims, Done, Evaluated, Rooms, Verified};
pub use modes::{Challenges, Logged, Mode, Proving, Sum, Verifying, Version};
pub use owned::{evaluate, prove, read_sheet, replay, verify, Accepted, Proved, Replayed};
pub use refusal::{Refusal, Words};
pub use used::{Refused, Used};
