//! The refusals by name, with their fields.
use crate::{ffi::Answer, Element};
use std::fmt;

/// The list that a word which is not below the prime stands in.
#[derive(Clone, Copy, Debug, PartialEq, Eq)]
pub enum Words {
    /// The rows, eight words each.
    Rows,
    /// The proof's elements in stored order: no version, length or count is counted.
    Proof,
    Challenges,
    /// The point of an evaluation.
    Point,
    /// A list that this crate does not know: the archive is newer.
    Unknown {
        number: u32,
    },
}

/// Why a call was refused. `number` has the number that C gets.
#[derive(Clone, Copy, Debug, PartialEq, Eq)]
pub enum Refusal {
    /// 1: the row words are not a multiple of 8.
    RaggedRows,
    /// 2: more than 1,024 rows.
    TooManyRows,
    /// 3: the rows are neither none nor a power of two.
    NotPowerOfTwo,
    /// 4: fewer challenges than the run draws.
    ShortChallenges,
    /// 5: an output or the workspace is too short.
    ShortRoom,
    /// 6: the place of the first word that is not below the prime, counted in words from 0, and its list.
    BadWord { place: u32, list: Words },
    /// 7: live mode, the lowest row with q zero.
    ZeroDenominator { row: u32 },
    /// 8: a zero sum was asserted and the sum's p is not zero.
    NonZeroRootSum,
    /// 9: one row.
    SingleRow,
    /// 10: the verifier was asked for no rounds, and not with [`crate::Mode::or_empty`].
    ZeroRounds,
    /// 11: more than 10 rounds.
    TooManyRounds,
    /// 12: no first byte, or no version: 1 of a sheet, 1 or 2 of a proof.
    BadVersion,
    /// 13: a stored length or a list disagrees with the bytes, or a point with the rows.
    BadLength,
    /// 14
    IncorrectLayerCount { expected: u32, actual: u32 },
    /// 15
    IncorrectSumcheckPolyCount { expected: u32, actual: u32 },
    /// 16: the sum that the proof shows is not zero.
    ZeroCheckFailed { actual: Element },
    /// 17: the stated denominator is not that of the first layer.
    RootConsistencyCheckFailed { expected: Element, actual: Element },
    /// 18
    IncorrectSubroundCount { round: u32, expected: u32, actual: u32 },
    /// 19: a layer's claims do not meet its polynomials.
    LayerConsistencyCheckFailed { round: u32, expected: Element, actual: Element },
    /// 22: no rounds, and the stated denominator is not 1.
    InvalidZeroRoundValue { actual: Element },
    /// 24: a replay, the place of the log's first word that is not the verifier's, from 0.
    LogMismatch { place: u32 },
    /// 25: a replay, the place where the log ends and the verifier's goes on.
    LogShort { place: u32 },
    /// 26: a replay, the place where the verifier's log ends and this one goes on.
    LogLong { place: u32 },
    /// 27: live mode, the sum's q is zero.
    ZeroRoot,
    /// 28: a mode that the call does not take. The calls of this crate pass none such: the archive is older.
    UnknownMode { bits: u32 },
    /// A number that this crate does not know: the archive is newer.
    Unknown { number: u32 },
}

fn element(words: &[u32]) -> Element {
    Element([words[0], words[1], words[2], words[3]])
}

fn list(number: u32) -> Words {
    match number {
        1 => Words::Rows,
        2 => Words::Proof,
        3 => Words::Challenges,
        4 => Words::Point,
        _ => Words::Unknown { number },
    }
}

impl Refusal {
    /// The refusal that sixteen words tell; word 0 is not 0.
    pub(crate) fn told(answer: &Answer) -> Self {
        let [number, a, b, c, ..] = *answer;
        let (left, right) = (element(&answer[4..8]), element(&answer[8..12]));
        match number {
            1 => Self::RaggedRows,
            2 => Self::TooManyRows,
            3 => Self::NotPowerOfTwo,
            4 => Self::ShortChallenges,
            5 => Self::ShortRoom,
            6 => Self::BadWord { place: a, list: list(b) },
            7 => Self::ZeroDenominator { row: a },
            8 => Self::NonZeroRootSum,
            9 => Self::SingleRow,
            10 => Self::ZeroRounds,
            11 => Self::TooManyRounds,
            12 => Self::BadVersion,
            13 => Self::BadLength,
            14 => Self::IncorrectLayerCount { expected: a, actual: b },
            15 => Self::IncorrectSumcheckPolyCount { expected: a, actual: b },
            16 => Self::ZeroCheckFailed { actual: left },
            17 => Self::RootConsistencyCheckFailed { expected: left, actual: right },
            18 => Self::IncorrectSubroundCount { round: a, expected: b, actual: c },
            19 => Self::LayerConsistencyCheckFailed { round: a, expected: left, actual: right },
            22 => Self::InvalidZeroRoundValue { actual: left },
            24 => Self::LogMismatch { place: a },
            25 => Self::LogShort { place: a },
            26 => Self::LogLong { place: a },
            27 => Self::ZeroRoot,
            28 => Self::UnknownMode { bits: a },
            _ => Self::Unknown { number },
        }
    }

    /// The number that C gets.
    pub fn number(&self) -> u32 {
        match *self {
            Self::RaggedRows => 1,
            Self::TooManyRows => 2,
            Self::NotPowerOfTwo => 3,
            Self::ShortChallenges => 4,
            Self::ShortRoom => 5,
            Self::BadWord { .. } => 6,
            Self::ZeroDenominator { .. } => 7,
            Self::NonZeroRootSum => 8,
            Self::SingleRow => 9,
            Self::ZeroRounds => 10,
            Self::TooManyRounds => 11,
            Self::BadVersion => 12,
            Self::BadLength => 13,
            Self::IncorrectLayerCount { .. } => 14,
            Self::IncorrectSumcheckPolyCount { .. } => 15,
            Self::ZeroCheckFailed { .. } => 16,
            Self::RootConsistencyCheckFailed { .. } => 17,
            Self::IncorrectSubroundCount { .. } => 18,
            Self::LayerConsistencyCheckFailed { .. } => 19,
            Self::InvalidZeroRoundValue { .. } => 22,
            Self::LogMismatch { .. } => 24,
            Self::LogShort { .. } => 25,
            Self::LogLong { .. } => 26,
            Self::ZeroRoot => 27,
            Self::UnknownMode { .. } => 28,
            Self::Unknown { number } => number,
        }
    }
}

impl fmt::Display for Refusal {
    fn fmt(&self, f: &mut fmt::Formatter<'_>) -> fmt::Result {
        write!(f, "refused by number {}: {self:?}", self.number())
    }
}

impl std::error::Error for Refusal {}
