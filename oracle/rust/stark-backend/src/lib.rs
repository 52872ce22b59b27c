//! Our frame around the Rust's seven files: what they take from the rest of their crate, which was not supplied.
//! The seven files stand unchanged in ../copied, where `oracle/build` puts them; everything in src/ is ours.
pub mod codec;
pub mod config;
mod decode;
pub mod dft;
#[path = "../copied/poly_common.rs"]
pub mod poly_common;
#[path = "../copied/proof.rs"]
pub mod proof;
pub mod prover;
pub mod transcript;
pub mod utils;
pub mod verifier;
pub use config::StarkProtocolConfig;
pub use transcript::traits::FiatShamirTranscript;
