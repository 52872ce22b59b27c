//! What a call used up of challenges and log, told beside every answer of the prover and the verifier.
use crate::{ffi::Answer, Refusal};
use std::fmt;

/// What a run used up: all that it asks for where it is done or accepted, what it came to where a proof is refused within it, and nothing where there was no run.
#[derive(Clone, Copy, Debug, Default, PartialEq, Eq)]
pub struct Used {
    /// The challenges sampled, elements of four words.
    pub challenges: usize,
    /// The words written at the front of the log, sampled ones too.
    pub log_words: usize,
}

impl Used {
    pub(crate) fn told(answer: &Answer) -> Self {
        Used { challenges: answer[12] as usize, log_words: answer[13] as usize }
    }
}

/// Why a run was refused, and what it had used up. The prover's refusals come before its run.
#[derive(Clone, Copy, Debug, PartialEq, Eq)]
pub struct Refused {
    pub refusal: Refusal,
    pub used: Used,
}

impl Refused {
    pub(crate) fn told(answer: &Answer) -> Self {
        Refused { refusal: Refusal::told(answer), used: Used::told(answer) }
    }

    /// The number that C gets.
    pub fn number(&self) -> u32 {
        self.refusal.number()
    }
}

impl From<Refused> for Refusal {
    fn from(refused: Refused) -> Self {
        refused.refusal
    }
}

impl fmt::Display for Refused {
    fn fmt(&self, f: &mut fmt::Formatter<'_>) -> fmt::Result {
        let Used { challenges, log_words } = self.used;
        write!(f, "{}, after {challenges} challenges and {log_words} log words", self.refusal)
    }
}

impl std::error::Error for Refused {}
