//! The drawing transcripts (document 02, W1): each sampled word comes from a hash of the log. Debian's `sha3` has the hash.
use crate::transcript::SC;
use p3_field::{BabyBear, P};
use sha3::{
    digest::{ExtendableOutput, Update, XofReader},
    Shake128,
};
use stark_backend::FiatShamirTranscript;

const LABEL: &[u8] = b"frac-gkr/1";
const SAMPLED: u32 = 1 << 31;

/// The word that a hash gives: its first 8 output bytes, big-endian, modulo the prime.
fn word(hash: Shake128) -> BabyBear {
    let mut first = [0; 8];
    hash.finalize_xof().read(&mut first);
    BabyBear::new((u64::from_be_bytes(first) % u64::from(P)) as u32)
}

/// By the definition: each word is drawn over the label and all log words so far, taken in anew.
#[derive(Clone, Debug, Default)]
pub struct Drawn {
    pub log: Vec<u32>,
}

impl FiatShamirTranscript<SC> for Drawn {
    fn observe(&mut self, value: BabyBear) {
        self.log.push(value.word());
    }

    fn sample(&mut self) -> BabyBear {
        let mut hash = Shake128::default();
        hash.update(LABEL);
        for w in &self.log {
            hash.update(&w.to_be_bytes());
        }
        let value = word(hash);
        self.log.push(value.word() | SAMPLED);
        value
    }

    fn observe_commit(&mut self, digest: [BabyBear; 8]) {
        digest.into_iter().for_each(|x| self.observe(x));
    }
}

/// The same words from a sponge that is carried along: a draw takes in what the log got since the last one, and finishes a copy.
#[derive(Clone, Debug)]
pub struct Carried {
    sponge: Shake128,
    taken: usize,
    pub log: Vec<u32>,
}

impl Carried {
    pub fn new() -> Self {
        let mut sponge = Shake128::default();
        sponge.update(LABEL);
        Self {
            sponge,
            taken: 0,
            log: vec![],
        }
    }
}

impl FiatShamirTranscript<SC> for Carried {
    fn observe(&mut self, value: BabyBear) {
        self.log.push(value.word());
    }

    fn sample(&mut self) -> BabyBear {
        for w in &self.log[self.taken..] {
            self.sponge.update(&w.to_be_bytes());
        }
        self.taken = self.log.len();
        let value = word(self.sponge.clone());
        self.log.push(value.word() | SAMPLED);
        value
    }

    fn observe_commit(&mut self, digest: [BabyBear; 8]) {
        digest.into_iter().for_each(|x| self.observe(x));
    }
}
