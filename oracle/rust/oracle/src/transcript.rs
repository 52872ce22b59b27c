//! The scripted transcript: hands out supplied challenges in order and keeps a log of everything observed and sampled.
use p3_field::{BabyBear, Ext};
use stark_backend::{
    codec::{DecodableConfig, EncodableConfig},
    FiatShamirTranscript, StarkProtocolConfig,
};
use std::io::{Read, Result, Write};

/// The one configuration: document 01's field.
#[derive(Clone, Debug)]
pub struct SC;

impl StarkProtocolConfig for SC {
    type F = BabyBear;
    type EF = Ext;
    type Digest = [BabyBear; 8];
}

// proof.rs asks for these; no command of the oracle runs them.
impl EncodableConfig for SC {
    fn encode_base_field<W: Write>(_: &BabyBear, _: &mut W) -> Result<()> {
        unimplemented!()
    }
    fn encode_extension_field<W: Write>(_: &Ext, _: &mut W) -> Result<()> {
        unimplemented!()
    }
    fn encode_digest<W: Write>(_: &[BabyBear; 8], _: &mut W) -> Result<()> {
        unimplemented!()
    }
}

impl DecodableConfig for SC {
    fn decode_extension_field<R: Read>(_: &mut R) -> Result<Ext> {
        unimplemented!()
    }
}

/// A log word is the value, with its top bit set if it was sampled.
#[derive(Clone, Debug)]
pub struct Scripted {
    challenges: Vec<BabyBear>,
    pub used: usize,
    pub log: Vec<u32>,
}

impl Scripted {
    pub fn new(challenges: Vec<BabyBear>) -> Self {
        Self {
            challenges,
            used: 0,
            log: vec![],
        }
    }
}

impl FiatShamirTranscript<SC> for Scripted {
    fn observe(&mut self, value: BabyBear) {
        self.log.push(value.word());
    }

    fn sample(&mut self) -> BabyBear {
        assert!(self.used < self.challenges.len(), "out of challenges");
        let value = self.challenges[self.used];
        self.used += 1;
        self.log.push(value.word() | 1 << 31);
        value
    }

    fn observe_commit(&mut self, digest: [BabyBear; 8]) {
        for x in digest {
            self.observe(x);
        }
    }
}
