#[path = "../../copied/verifier/fractional_sumcheck_gkr.rs"]
pub mod fractional_sumcheck_gkr;
