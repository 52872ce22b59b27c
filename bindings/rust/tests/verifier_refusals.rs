//! The verifier's numbers, each at its boundary, and what point and log hold after each.
mod plain;

use accudrina::{rooms, verify_into, words_of, Claims, Element, Mode, Refusal, Sum, Version, Words, PRIME};
use plain::{
    field::{add, mul},
    lent::{marked, Lent, WORD},
    make::Source,
    prover::Proof,
};
use Refusal::*;

/// An honest proof of so many rounds, and its challenges.
fn case(rounds: usize) -> (Proof, Vec<Element>) {
    let mut source = Source(rounds as u64);
    let (rows, challenges) = (source.zero_sum(rounds), source.challenges(rounds));
    (plain::prover::prove(&rows, true, &challenges).0, challenges)
}

/// The answer in sandbox mode.
fn answer(proof: &[u8], rounds: usize, challenges: &[Element]) -> Result<Claims, Refusal> {
    answer_in(Mode::Sandbox, proof, rounds, challenges)
}

/// The answer over exact room; a refusal leaves the point, and in the log what the plain run logged until then.
fn answer_in(mode: Mode, proof: &[u8], rounds: usize, challenges: &[Element]) -> Result<Claims, Refusal> {
    let mut lent = Lent::spare(rounds, true);
    let told = lent.verify(proof, rounds, mode, challenges);
    let (verdict, log) = plain::verifier::verify(proof, rounds, mode, challenges);
    assert_eq!(told, verdict.clone().map(|v| v.0));
    assert_eq!(lent.log, marked(&log, lent.log.len()));
    let point = verdict.map_or(vec![], |v| words_of(&v.1));
    assert_eq!(lent.point, marked(&point, lent.point.len()));
    told
}

fn refused(proof: &Proof, rounds: usize, challenges: &[Element]) -> Refusal {
    answer(&proof.bytes(), rounds, challenges).unwrap_err()
}

#[test]
fn n10_and_n11_rounds() {
    assert_eq!(answer(&[], 0, &[]), Err(ZeroRounds));
    for rounds in [11, 12, 255, 1 << 32, usize::MAX] {
        assert_eq!(answer(&[], rounds, &[]), Err(TooManyRounds));
    }
    let (proof, challenges) = case(10);
    assert!(answer(&proof.bytes(), 10, &challenges).is_ok());
}

#[test]
fn n4_and_n5_challenges_and_room() {
    for n in 1..=10 {
        let (proof, challenges) = case(n);
        let (bytes, words) = (proof.bytes(), words_of(&challenges));
        let told = |bytes: &[u8], words: &[u32], less_point: usize, less_log: usize| {
            let mut point = vec![WORD; rooms::point_words(n) - less_point];
            let mut log = vec![WORD; rooms::log_words(n, Sum::AssertZero, Version::of(bytes)) - less_log];
            let told = verify_into(bytes, n, Mode::Live, words, &mut point, &mut log);
            assert!(told.is_ok() || (point.iter().chain(&log).all(|&w| w == WORD)));
            told.map(|_| ()).map_err(Refusal::from)
        };
        assert_eq!(told(&bytes, &words, 0, 0), Ok(()));
        assert_eq!(told(&[], &words[..words.len() - 1], 1, 1), Err(ShortChallenges));
        assert_eq!(told(&[], &words, 1, 1), Err(BadVersion));
        assert_eq!(told(&[3], &words, 1, 1), Err(BadVersion));
        for version in [1, 2] {
            assert_eq!(told(&[version], &words, 1, 0), Err(ShortRoom));
            assert_eq!(told(&[version], &words, 0, 1), Err(ShortRoom));
            assert_eq!(told(&[version], &words, 0, 0), Err(BadLength));
        }
        assert_eq!(told(&[2], &words, 0, 4), Err(ShortRoom));
    }
}

#[test]
fn n12_and_n13_bytes() {
    let (proof, challenges) = case(3);
    let bytes = proof.bytes();
    for version in [0, 3, 129, 255] {
        let mut bad = bytes.clone();
        bad[0] = version;
        assert_eq!(answer(&bad, 3, &challenges), Err(BadVersion));
    }
    for length in 1..bytes.len() {
        assert_eq!(answer(&bytes[..length], 3, &challenges), Err(BadLength));
    }
    assert_eq!(answer(&[&bytes[..], &[0]].concat(), 3, &challenges), Err(BadLength));
    let counts = [21, 22 + 64 * 3, 23 + 64 * 3, 24 + 64 * 3 + 48];
    for at in (1..5).chain(counts) {
        for change in [1, 255] {
            let mut bad = bytes.clone();
            bad[at] = bad[at].wrapping_add(change);
            assert_eq!(answer(&bad, 3, &challenges), Err(BadLength), "byte {at}");
        }
    }
}

#[test]
fn n6_words() {
    let (proof, challenges) = case(3);
    let bytes = proof.bytes();
    let in_layers = (0..12).map(|k| 22 + 16 * k);
    let in_polys = [24 + 192, 25 + 192 + 48, 25 + 192 + 96];
    // Of the entries: the first sub-round's s(1), then the second entry's, whose count stands before it.
    let elements = (0..13).chain([13, 16, 19]);
    for (at, element) in [5].into_iter().chain(in_layers).chain(in_polys).zip(elements) {
        for word in 0..4 {
            let mut bad = bytes.clone();
            bad[at + 4 * word..at + 4 * word + 4].copy_from_slice(&PRIME.to_be_bytes());
            let place = 4 * element + word as u32;
            assert_eq!(answer(&bad, 3, &challenges), Err(BadWord { place, list: Words::Proof }), "byte {at}");
        }
    }
    for at in 0..challenges.len() {
        let mut bad = challenges.clone();
        bad[at].0[3] = PRIME;
        let place = 4 * at as u32 + 3;
        assert_eq!(answer(&bytes, 3, &bad), Err(BadWord { place, list: Words::Challenges }));
        bad[challenges.len() - 1].0 = [u32::MAX; 4];
        let place = place.min(4 * challenges.len() as u32 - 4);
        assert_eq!(answer(&bytes, 3, &bad), Err(BadWord { place, list: Words::Challenges }));
    }
    let unneeded = [&challenges[..], &[Element([u32::MAX; 4])]].concat();
    assert!(answer(&bytes, 3, &unneeded).is_ok());
}

#[test]
fn n14_and_n15_counts() {
    let mut source = Source(1);
    for n in 1..=10u32 {
        let (proof, challenges) = case(n as usize);
        for rounds in (1..=10).filter(|&r| r != n) {
            let told = refused(&proof, rounds as usize, &source.challenges(rounds as usize));
            assert_eq!(told, IncorrectLayerCount { expected: rounds, actual: n });
        }
        let mut more = proof.clone();
        more.polys.push(vec![]);
        assert_eq!(refused(&more, n as usize, &challenges), IncorrectSumcheckPolyCount { expected: n - 1, actual: n });
        more.layers.resize(255, [Element::ZERO; 4]);
        assert_eq!(refused(&more, n as usize, &challenges), IncorrectLayerCount { expected: n, actual: 255 });
    }
}

#[test]
fn n16_before_n17() {
    let (mut proof, challenges) = case(2);
    let [p0, q0, p1, q1] = proof.layers[0];
    proof.q0 = add(proof.q0, Element::ONE);
    assert_eq!(refused(&proof, 2, &challenges), RootConsistencyCheckFailed { expected: proof.q0, actual: mul(q0, q1) });
    proof.layers[0][0] = add(p0, Element::ONE);
    let actual = add(mul(proof.layers[0][0], q1), mul(p1, q0));
    assert_eq!(refused(&proof, 2, &challenges), ZeroCheckFailed { actual });
}

#[test]
fn n18_in_every_round() {
    let (proof, challenges) = case(5);
    for round in 1..5 {
        for actual in [0, round - 1, round + 1, 255] {
            let mut bad = proof.clone();
            bad.polys[round as usize - 1].resize(actual as usize, [Element::ONE; 3]);
            assert_eq!(refused(&bad, 5, &challenges), IncorrectSubroundCount { round, expected: round, actual });
        }
    }
}

#[test]
fn n19_in_every_round() {
    let (proof, challenges) = case(5);
    for round in 1..5u32 {
        for which in 0..4 {
            let mut bad = proof.clone();
            let value = &mut bad.layers[round as usize][which];
            *value = add(*value, Element([0, 0, 1, 0]));
            let told = refused(&bad, 5, &challenges);
            assert!(matches!(told, LayerConsistencyCheckFailed { round: r, .. } if r == round), "{told}");
        }
        for sub_round in 0..round as usize {
            let mut bad = proof.clone();
            let value = &mut bad.polys[round as usize - 1][sub_round][2];
            *value = add(*value, Element::ONE);
            let told = refused(&bad, 5, &challenges);
            assert!(matches!(told, LayerConsistencyCheckFailed { round: r, .. } if r == round), "{told}");
        }
    }
}

#[test]
fn n27_live_after_the_counts() {
    for n in 1..=5 {
        let (mut proof, challenges) = case(n);
        let live = |proof: &Proof| answer_in(Mode::Live, &proof.bytes(), n, &challenges);
        assert_eq!(live(&proof), answer(&proof.bytes(), n, &challenges));
        let denom = std::mem::replace(&mut proof.q0, Element::ZERO);
        assert_eq!(live(&proof), Err(ZeroRoot));
        assert_eq!(refused(&proof, n, &challenges), RootConsistencyCheckFailed { expected: Element::ZERO, actual: denom });
        for coordinate in 0..4 {
            proof.q0 = Element::ZERO;
            proof.q0.0[coordinate] = 1;
            assert_eq!(live(&proof), Err(RootConsistencyCheckFailed { expected: proof.q0, actual: denom }));
        }
        proof.q0 = Element::ZERO;
        let mut more = proof.clone();
        more.polys.push(vec![]);
        assert_eq!(live(&more).unwrap_err().number(), 15);
        more.layers.push([Element::ZERO; 4]);
        assert_eq!(live(&more).unwrap_err().number(), 14);
    }
}
