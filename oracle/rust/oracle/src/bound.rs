//! A transcript that observes an element of its own before anything else (document 02, W9): the number of rounds of a proof of version 2.
//! It does so when the run first observes or samples, so that a run which does neither leaves an empty log.
use crate::{transcript::SC, Kept};
use p3_field::{BabyBear, PrimeCharacteristicRing};
use stark_backend::FiatShamirTranscript;

#[derive(Clone, Debug)]
pub struct Bound<T> {
    inner: T,
    rounds: Option<usize>,
}

impl<T: Kept> Bound<T> {
    /// Of a proof of version 1 nothing is observed.
    pub fn new(inner: T, version: u8, rounds: usize) -> Self {
        let rounds = (version == 2).then_some(rounds);
        Self { inner, rounds }
    }

    fn begin(&mut self) {
        if let Some(n) = self.rounds.take() {
            for word in [n, 0, 0, 0] {
                self.inner.observe(BabyBear::from_u64(word as u64));
            }
        }
    }
}

impl<T: Kept> FiatShamirTranscript<SC> for Bound<T> {
    fn observe(&mut self, value: BabyBear) {
        self.begin();
        self.inner.observe(value);
    }

    fn sample(&mut self) -> BabyBear {
        self.begin();
        self.inner.sample()
    }

    fn observe_commit(&mut self, digest: [BabyBear; 8]) {
        self.begin();
        self.inner.observe_commit(digest);
    }
}

impl<T: Kept> Kept for Bound<T> {
    fn log(&self) -> &[u32] {
        self.inner.log()
    }
}
