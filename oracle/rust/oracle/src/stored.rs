//! The stored form of a proof (document 01): the Rust's own encoding is not used.
use crate::transcript::SC;
use p3_field::{BabyBear, Ext, PrimeCharacteristicRing, P};
use stark_backend::proof::{GkrLayerClaims, GkrProof};

/// Version, length of what follows, q0, layers (p0, q0, p1, q1), entries of sub-rounds.
pub fn store(
    version: u8,
    q0: Ext,
    layers: &[GkrLayerClaims<SC>],
    polys: &[Vec<[Ext; 3]>],
) -> Vec<u8> {
    let mut body = vec![];
    put(&mut body, q0);
    body.push(layers.len() as u8);
    for l in layers {
        for e in [l.p_xi_0, l.q_xi_0, l.p_xi_1, l.q_xi_1] {
            put(&mut body, e);
        }
    }
    body.push(polys.len() as u8);
    for entry in polys {
        body.push(entry.len() as u8);
        for &e in entry.iter().flatten() {
            put(&mut body, e);
        }
    }
    let mut proof = vec![version];
    proof.extend((body.len() as u32).to_be_bytes());
    proof.extend(body);
    proof
}

fn put(out: &mut Vec<u8>, e: Ext) {
    for w in e.words() {
        out.extend(w.to_be_bytes());
    }
}

/// The version and the proof that the bytes hold, or the number: 12, 13, or 6 once the whole layout is known to be good.
pub fn load(bytes: &[u8]) -> Result<(u8, GkrProof<SC>), u32> {
    let mut c = Cursor {
        rest: bytes,
        bad_word: false,
    };
    let version = c.byte().unwrap_or(0);
    if version != 1 && version != 2 {
        return Err(12);
    }
    let length = c.word()?;
    if c.rest.len() != length as usize {
        return Err(13);
    }
    let q0_claim = c.ext()?;
    let mut claims_per_layer = vec![];
    for _ in 0..c.byte()? {
        let (p_xi_0, q_xi_0, p_xi_1, q_xi_1) = (c.ext()?, c.ext()?, c.ext()?, c.ext()?);
        claims_per_layer.push(GkrLayerClaims {
            p_xi_0,
            p_xi_1,
            q_xi_0,
            q_xi_1,
        });
    }
    let mut sumcheck_polys = vec![];
    for _ in 0..c.byte()? {
        let mut entry = vec![];
        for _ in 0..c.byte()? {
            entry.push([c.ext()?, c.ext()?, c.ext()?]);
        }
        sumcheck_polys.push(entry);
    }
    if !c.rest.is_empty() {
        return Err(13);
    }
    if c.bad_word {
        return Err(6);
    }
    let proof = GkrProof {
        logup_pow_witness: BabyBear::ZERO,
        q0_claim,
        claims_per_layer,
        sumcheck_polys,
    };
    Ok((version, proof))
}

struct Cursor<'a> {
    rest: &'a [u8],
    bad_word: bool,
}

impl Cursor<'_> {
    fn byte(&mut self) -> Result<u8, u32> {
        let (&b, rest) = self.rest.split_first().ok_or(13u32)?;
        self.rest = rest;
        Ok(b)
    }

    fn word(&mut self) -> Result<u32, u32> {
        Ok(u32::from_be_bytes([
            self.byte()?,
            self.byte()?,
            self.byte()?,
            self.byte()?,
        ]))
    }

    fn ext(&mut self) -> Result<Ext, u32> {
        let mut e = Ext::ZERO;
        for c in &mut e.0 {
            let w = self.word()?;
            self.bad_word |= w >= P;
            *c = BabyBear::from_u64(w as u64);
        }
        Ok(e)
    }
}
