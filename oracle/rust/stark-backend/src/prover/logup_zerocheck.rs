#[path = "../../copied/prover/logup_zerocheck/fractional_sumcheck_gkr.rs"]
pub mod fractional_sumcheck_gkr;
