//! The cases checked by hand, and the room questions.
mod plain;

use accudrina::{prove, rooms, verify, Claims, Element, Fraction, Mode, Refusal, Refused, Sum, Used, Version, PRIME};

fn word(k: i64) -> Element {
    Element::new(k.rem_euclid(i64::from(PRIME)) as u32)
}

fn rows(list: &[(i64, i64)]) -> Vec<Fraction> {
    list.iter().map(|&(p, q)| Fraction::new(word(p), word(q))).collect()
}

fn words(list: &[i64]) -> Vec<Element> {
    list.iter().map(|&k| word(k)).collect()
}

fn claims(numer: i64, denom: i64) -> Claims {
    Claims { numer: word(numer), denom: word(denom) }
}

fn used(challenges: usize, log_words: usize) -> Used {
    Used { challenges, log_words }
}

/// A refusal before the run.
fn at_once(refusal: Refusal) -> Refused {
    Refused { refusal, used: used(0, 0) }
}

/// A refusal at the root, of which q0 and layer 0 were observed.
fn at_root(refusal: Refusal) -> Refused {
    Refused { refusal, used: used(0, 20) }
}

/// Proves with the zero sum asserted and verifies: the sum, the claims, the point; every challenge is used up.
fn both(list: &[(i64, i64)], challenges: &[i64]) -> (Fraction, Claims, Vec<Element>) {
    let challenges = words(challenges);
    let proved = prove(&rows(list), Mode::Sandbox, Sum::AssertZero, &challenges).unwrap();
    let accepted = verify(&proved.proof, proved.rounds, Mode::Sandbox, &challenges).unwrap();
    assert_eq!((&accepted.log, &accepted.point), (&proved.log, &proved.point));
    assert_eq!([accepted.used, proved.used], [used(challenges.len(), proved.log.len()); 2]);
    (proved.sum, accepted.claims, accepted.point)
}

#[test]
fn k2_two_rows() {
    assert_eq!(both(&[(1, 2), (-1, 2)], &[5]), (rows(&[(0, 4)])[0], claims(-9, 2), words(&[5])));
}

#[test]
fn k3_four_rows() {
    let k3 = [(1, 1), (2, 1), (-1, 1), (-2, 1)];
    assert_eq!(both(&k3, &[2, 1, 3, 4]), (rows(&[(0, 1)])[0], claims(-25, 1), words(&[4, 3])));
    let proof = prove(&rows(&k3), Mode::Live, Sum::AssertZero, &words(&[2, 1, 3, 4])).unwrap().proof;
    let read = plain::verifier::parse(&proof).unwrap();
    let values = [[3, 1, -3, 1], [-5, 1, -10, 1]].map(|l| l.map(word));
    assert_eq!((read.layers, read.polys), (values.to_vec(), vec![vec![[-4, -40, -112].map(word)]]));
}

#[test]
fn k4_zero_over_zero() {
    let k4 = [(0, 0), (0, 0)];
    assert_eq!(both(&k4, &[5]), (rows(&[(0, 0)])[0], claims(0, 0), words(&[5])));
    let proof = prove(&rows(&k4), Mode::Sandbox, Sum::AssertZero, &words(&[5])).unwrap().proof;
    assert_eq!(verify(&proof, 1, Mode::Live, &words(&[5])), Err(at_once(Refusal::ZeroRoot)));
}

#[test]
fn k5_one_row() {
    let one = |list: &[(i64, i64)], sum| prove(&rows(list), Mode::Sandbox, sum, &[]).unwrap_err();
    assert_eq!(one(&[(1, 1)], Sum::AssertZero), at_once(Refusal::NonZeroRootSum));
    assert_eq!(one(&[(1, 1)], Sum::Observe), at_once(Refusal::SingleRow));
    assert_eq!(one(&[(0, 1)], Sum::AssertZero), at_once(Refusal::SingleRow));
}

#[test]
fn k6_a_sum_of_two() {
    let k6 = rows(&[(1, 1), (1, 1)]);
    assert_eq!(prove(&k6, Mode::Sandbox, Sum::AssertZero, &words(&[5])), Err(at_once(Refusal::NonZeroRootSum)));
    let proved = prove(&k6, Mode::Sandbox, Sum::Observe, &words(&[5])).unwrap();
    assert_eq!((proved.sum, proved.used), (rows(&[(2, 1)])[0], used(1, 28)));
    assert_eq!(verify(&proved.proof, 1, Mode::Live, &words(&[5])), Err(at_root(Refusal::ZeroCheckFailed { actual: word(2) })));
}

#[test]
fn k7_live_rows() {
    let live = |list: &[(i64, i64)]| prove(&rows(list), Mode::Live, Sum::AssertZero, &words(&[5]));
    assert_eq!(live(&[(1, 0), (0, 1)]), Err(at_once(Refusal::ZeroDenominator { row: 0 })));
    assert_eq!(live(&[(0, 0), (0, 1)]), Err(at_once(Refusal::ZeroDenominator { row: 0 })));
}

#[test]
fn k10_another_denominator() {
    let mut proof = prove(&rows(&[(1, 2), (-1, 2)]), Mode::Sandbox, Sum::AssertZero, &words(&[5])).unwrap().proof;
    proof[8] = 5;
    let refusal = Refusal::RootConsistencyCheckFailed { expected: word(5), actual: word(4) };
    assert_eq!(verify(&proof, 1, Mode::Live, &words(&[5])), Err(at_root(refusal)));
    assert_eq!(refusal.number(), 17);
}

#[test]
fn rooms_in_range() {
    assert_eq!([0, 1, 2, 10].map(rooms::proof_bytes), [23, 87, 200, 2832]);
    assert_eq!([0, 1, 2, 10].map(rooms::point_words), [0, 4, 8, 40]);
    assert_eq!([0, 1, 2, 10].map(|n| rooms::log_words(n, Sum::AssertZero, Version::One)), [0, 24, 64, 960]);
    assert_eq!([0, 1, 2, 10].map(|n| rooms::log_words(n, Sum::Observe, Version::One)), [0, 28, 68, 964]);
    assert_eq!([0, 1, 2, 10].map(|n| rooms::log_words(n, Sum::AssertZero, Version::Two)), [0, 28, 68, 964]);
    assert_eq!([0, 1, 2, 10].map(|n| rooms::log_words(n, Sum::Observe, Version::Two)), [0, 32, 72, 968]);
    assert_eq!([0, 1, 2, 10].map(rooms::workspace_words), [0, 64, 128, 32768]);
    assert_eq!([0, 1, 2, 10].map(rooms::challenge_words), [0, 4, 16, 256]);
}

#[test]
fn rooms_out_of_range() {
    for n in [11, 12, 64, 1 << 32, usize::MAX] {
        let asked = [rooms::proof_bytes(n), rooms::point_words(n), rooms::workspace_words(n), rooms::challenge_words(n)];
        let logs = [Sum::AssertZero, Sum::Observe].map(|sum| [Version::One, Version::Two].map(|v| rooms::log_words(n, sum, v)));
        assert_eq!((asked, logs), ([0; 4], [[0; 2]; 2]));
    }
}

#[test]
fn rounds_of_rows() {
    assert_eq!(rooms::rounds(0), 0);
    for rows in 1..=4096usize {
        let taken = rows <= 1024 && rows.is_power_of_two();
        assert_eq!(rooms::rounds(rows), if taken { rows.trailing_zeros() as usize } else { 11 });
    }
    for rows in [1 << 20, 1 << 40, 1 << 63, usize::MAX] {
        assert_eq!(rooms::rounds(rows), 11);
    }
}
