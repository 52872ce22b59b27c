//! The verifying run over bytes and vectors, with every refusal in its order.
use super::{
    field::{add, interpolate, line, mul, sub},
    prover::{Proof, Transcript},
};
use accudrina::{rooms, Claims, Element, Mode, Refusal, Words, PRIME};

/// The bytes taken apart, or none where a length or a count disagrees with them.
pub fn parse(bytes: &[u8]) -> Option<Proof> {
    let length = u32::from_be_bytes(bytes.get(1..5)?.try_into().unwrap());
    if length as usize != bytes.len() - 5 {
        return None;
    }
    let mut rest = &bytes[5..];
    let mut take = |k: usize| {
        let front = rest.get(..k)?;
        rest = &rest[k..];
        Some(front)
    };
    let element = |b: &[u8]| Element(std::array::from_fn(|i| u32::from_be_bytes(b[4 * i..4 * i + 4].try_into().unwrap())));
    let q0 = element(take(16)?);
    let count = take(1)?[0] as usize;
    let layers = take(64 * count)?.chunks(64).map(|l| std::array::from_fn(|i| element(&l[16 * i..]))).collect();
    let entries = take(1)?[0];
    let mut polys = vec![];
    for _ in 0..entries {
        let count = take(1)?[0] as usize;
        polys.push(take(48 * count)?.chunks(48).map(|l| std::array::from_fn(|i| element(&l[16 * i..]))).collect());
    }
    rest.is_empty().then_some(Proof { q0, layers, polys })
}

/// Refused where a word is not below the prime, with the place of the first.
fn canonical<'a>(es: impl Iterator<Item = &'a Element>, list: Words) -> Result<(), Refusal> {
    match es.flat_map(|e| e.0).position(|w| w >= PRIME) {
        Some(place) => Err(Refusal::BadWord { place: place as u32, list }),
        None => Ok(()),
    }
}

/// The refusals before the run, with room enough.
fn gate(bytes: &[u8], rounds: usize, mode: Mode, challenges: &[Element]) -> Result<Proof, Refusal> {
    if rounds == 0 {
        return Err(Refusal::ZeroRounds);
    }
    if rounds > 10 {
        return Err(Refusal::TooManyRounds);
    }
    let needed = rooms::challenge_words(rounds) / 4;
    if challenges.len() < needed {
        return Err(Refusal::ShortChallenges);
    }
    if ![Some(&1), Some(&2)].contains(&bytes.first()) {
        return Err(Refusal::BadVersion);
    }
    let proof = parse(bytes).ok_or(Refusal::BadLength)?;
    let claims = proof.layers.iter().flatten();
    canonical([&proof.q0].into_iter().chain(claims).chain(proof.polys.iter().flatten().flatten()), Words::Proof)?;
    canonical(challenges[..needed].iter(), Words::Challenges)?;
    let count = |n: usize| n as u32;
    if proof.layers.len() != rounds {
        return Err(Refusal::IncorrectLayerCount { expected: count(rounds), actual: count(proof.layers.len()) });
    }
    if proof.polys.len() != rounds - 1 {
        return Err(Refusal::IncorrectSumcheckPolyCount { expected: count(rounds - 1), actual: count(proof.polys.len()) });
    }
    if mode == Mode::Live && proof.q0 == Element::ZERO {
        return Err(Refusal::ZeroRoot);
    }
    Ok(proof)
}

/// The claims and their point.
pub type Verdict = Result<(Claims, Vec<Element>), Refusal>;

fn cross([p0, q0, p1, q1]: [Element; 4]) -> (Element, Element) {
    (add(mul(p0, q1), mul(p1, q0)), mul(q0, q1))
}

fn reduced([p0, q0, p1, q1]: [Element; 4], mu: Element) -> Claims {
    Claims { numer: line(p0, p1, mu), denom: line(q0, q1, mu) }
}

/// One layer from the claims at a point to those at the next.
fn layer(t: &mut Transcript<'_>, proof: &Proof, round: usize, claims: Claims, point: &[Element]) -> Verdict {
    let lambda = t.sample();
    let mut claim = add(claims.numer, mul(lambda, claims.denom));
    let polys = &proof.polys[round - 1];
    let round_word = round as u32;
    if polys.len() != round {
        return Err(Refusal::IncorrectSubroundCount { round: round_word, expected: round_word, actual: polys.len() as u32 });
    }
    let (mut rhos, mut eq) = (vec![], Element::ONE);
    for (s, &xi) in polys.iter().zip(point) {
        s.iter().for_each(|&e| t.observe(e));
        let rho = t.sample();
        claim = interpolate(&[sub(claim, s[0]), s[0], s[1], s[2]], rho);
        let (not_xi, not_rho) = (sub(Element::ONE, xi), sub(Element::ONE, rho));
        eq = mul(eq, add(mul(xi, rho), mul(not_xi, not_rho)));
        rhos.push(rho);
    }
    let values = proof.layers[round];
    values.iter().for_each(|&e| t.observe(e));
    let (p, q) = cross(values);
    let expected = mul(add(p, mul(lambda, q)), eq);
    if expected != claim {
        return Err(Refusal::LayerConsistencyCheckFailed { round: round_word, expected, actual: claim });
    }
    let mu = t.sample();
    Ok((reduced(values, mu), [vec![mu], rhos].concat()))
}

fn run(t: &mut Transcript<'_>, proof: &Proof) -> Verdict {
    t.observe(proof.q0);
    let first = proof.layers[0];
    first.iter().for_each(|&e| t.observe(e));
    let (p, q) = cross(first);
    if p != Element::ZERO {
        return Err(Refusal::ZeroCheckFailed { actual: p });
    }
    if q != proof.q0 {
        return Err(Refusal::RootConsistencyCheckFailed { expected: proof.q0, actual: q });
    }
    let mu = t.sample();
    let (mut claims, mut point) = (reduced(first, mu), vec![mu]);
    for round in 1..proof.layers.len() {
        (claims, point) = layer(t, proof, round, claims, &point)?;
    }
    Ok((claims, point))
}

/// The verdict with the point, and the log.
pub fn verify(bytes: &[u8], rounds: usize, mode: Mode, challenges: &[Element]) -> (Verdict, Vec<u32>) {
    let proof = match gate(bytes, rounds, mode, challenges) {
        Ok(proof) => proof,
        Err(refusal) => return (Err(refusal), vec![]),
    };
    let mut t = Transcript { log: vec![], left: challenges };
    if bytes[0] == 2 {
        t.observe(Element::new(rounds as u32));
    }
    let verdict = run(&mut t, &proof);
    (verdict, t.log)
}
