//! Lent buffers with a mark in every word and room to spare, so that what was written and what was not are both seen.
use accudrina::{
    prove_into, rooms, row_words, verify_into, words_of, Claims, Done, Element, Fraction, Mode, Refusal, Refused, Rooms, Sum, Used, Version,
};

pub const BYTE: u8 = 0xa5;
pub const WORD: u32 = 0xdead_beef;
const SPARE: usize = 3;

#[derive(Clone, Debug, PartialEq)]
pub struct Lent {
    pub proof: Vec<u8>,
    pub point: Vec<u32>,
    pub log: Vec<u32>,
    pub work: Vec<u32>,
}

impl Lent {
    /// Buffers of exactly the room that is asked for, for a proof of version 1.
    pub fn exact(rounds: usize, assert_zero: bool) -> Self {
        let sum = if assert_zero { Sum::AssertZero } else { Sum::Observe };
        Self {
            proof: vec![BYTE; rooms::proof_bytes(rounds)],
            point: vec![WORD; rooms::point_words(rounds)],
            log: vec![WORD; rooms::log_words(rounds, sum, Version::One)],
            work: vec![WORD; rooms::workspace_words(rounds)],
        }
    }

    /// And with room to spare, in the log for version 2 too.
    pub fn spare(rounds: usize, assert_zero: bool) -> Self {
        let mut lent = Self::exact(rounds, assert_zero);
        lent.proof.extend([BYTE; SPARE]);
        for words in [&mut lent.point, &mut lent.log, &mut lent.work] {
            words.extend([WORD; SPARE]);
        }
        lent.log.extend([WORD; 4]);
        lent
    }

    pub fn prove(&mut self, rows: &[Fraction], mode: Mode, sum: Sum, challenges: &[Element]) -> Result<Done, Refusal> {
        self.prove_words(&row_words(rows), mode, sum, &words_of(challenges))
    }

    pub fn prove_words(&mut self, rows: &[u32], mode: Mode, sum: Sum, challenges: &[u32]) -> Result<Done, Refusal> {
        let rooms = Rooms { proof: &mut self.proof, point: &mut self.point, log: &mut self.log, work: &mut self.work };
        let told = prove_into(rows, mode, sum, challenges, rooms);
        self.seen(told.map(|d| (d, d.used)))
    }

    pub fn verify(&mut self, proof: &[u8], rounds: usize, mode: Mode, challenges: &[Element]) -> Result<Claims, Refusal> {
        let told = verify_into(proof, rounds, mode, &words_of(challenges), &mut self.point, &mut self.log);
        self.seen(told.map(|v| (v.claims, v.used)))
    }

    /// What was told as used up stands in the log before the marks.
    fn seen<T>(&self, told: Result<(T, Used), Refused>) -> Result<T, Refusal> {
        let (told, counted) = told.map_or_else(|r| (Err(r.refusal), r.used), |(t, u)| (Ok(t), u));
        let written = self.log.iter().rposition(|&w| w != WORD).map_or(0, |last| last + 1);
        assert_eq!(counted, used(&self.log[..written]));
        told
    }
}

/// What stands in a log: its words, and four sampled ones for each challenge.
pub fn used(log: &[u32]) -> Used {
    let sampled = log.iter().filter(|&w| w >> 31 == 1).count();
    assert_eq!(sampled % 4, 0);
    Used { challenges: sampled / 4, log_words: log.len() }
}

/// The words in front, and marks behind.
pub fn marked(front: &[u32], length: usize) -> Vec<u32> {
    let mut words = front.to_vec();
    words.resize(length, WORD);
    words
}

/// The bytes in front, and marks behind.
pub fn marked_bytes(front: &[u8], length: usize) -> Vec<u8> {
    let mut bytes = front.to_vec();
    bytes.resize(length, BYTE);
    bytes
}
