//! The run once more, written plainly in Rust: the field, values by the plain sum, prover and verifier over vectors.
#![allow(dead_code)]
pub mod field;
pub mod lent;
pub mod make;
pub mod prover;
pub mod verifier;
