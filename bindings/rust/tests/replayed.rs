//! A verdict from a stored log alone: the log of an accepted proof, of a rejected one, and logs that are another's.
mod plain;

use accudrina::*;
use plain::make::{counted, zero_sum};

/// The verifier's own log, and so the prover's, replays to the same verdict, in both versions.
#[test]
fn the_own_log_replays() {
    for rounds in 1..=10 {
        let rows = zero_sum(rounds);
        for how in [Proving::from(Mode::Live), Mode::Live.sized()] {
            let drawn = prove(&rows, how, Sum::AssertZero, Challenges::Drawn).unwrap();
            let accepted = verify(&drawn.proof, rounds, Mode::Live, Challenges::Drawn).unwrap();
            let expected = Replayed { claims: accepted.claims, point: accepted.point.clone(), used: accepted.used };
            for logged in [Logged::Drawn, Logged::Supplied] {
                assert_eq!(replay(&drawn.proof, rounds, Mode::Live, logged, &drawn.log), Ok(expected.clone()));
            }
            let supplied = prove(&rows, how, Sum::AssertZero, &counted()).unwrap();
            let again = replay(&supplied.proof, rounds, Mode::Live, Logged::Supplied, &supplied.log).unwrap();
            assert_eq!(again.point, supplied.point);
        }
    }
}

/// Each word changed in its lowest bit or in its highest: told at its place or before it, and no claim but where another challenge makes the log of another run.
#[test]
fn one_word_changed() {
    let proved = prove(&zero_sum(2), Mode::Live, Sum::AssertZero, Challenges::Drawn).unwrap();
    for at in 0..proved.log.len() {
        for bit in [0, 31] {
            let mut log = proved.log.clone();
            log[at] ^= 1 << bit;
            let mut point = [9; 8];
            let told = replay_into(&proved.proof, 2, Mode::Live, Logged::Drawn, &log, &mut point).unwrap_err();
            assert_eq!(told, Refused { refusal: Refusal::LogMismatch { place: at as u32 }, used: Used { challenges: 0, log_words: 0 } });
            assert_eq!(point, [9; 8]);
        }
    }
}

#[test]
fn shorter_and_longer() {
    let proved = prove(&zero_sum(3), Mode::Live.sized(), Sum::AssertZero, &counted()).unwrap();
    let told = |log: &[u32]| replay(&proved.proof, 3, Mode::Live, Logged::Supplied, log).unwrap_err().refusal;
    let n = proved.log.len() as u32;
    assert_eq!(told(&proved.log[..proved.log.len() - 1]), Refusal::LogShort { place: n - 1 });
    assert_eq!(told(&[]), Refusal::LogShort { place: 0 });
    assert_eq!(told(&[&proved.log[..], &[0]].concat()), Refusal::LogLong { place: n });
}

/// A rejected proof has a log too, and replays to its refusal and its counts.
#[test]
fn a_rejected_proof() {
    let proved = prove(&zero_sum(2), Mode::Live, Sum::AssertZero, Challenges::Drawn).unwrap();
    let mut proof = proved.proof.clone();
    let last = proof.len() - 1;
    proof[last] ^= 1;
    let (mut point, mut log) = ([0; 8], [0; 64]);
    let refused = verify_into(&proof, 2, Mode::Live, Challenges::Drawn, &mut point, &mut log).unwrap_err();
    assert_eq!(refused.number(), 19);
    let log = &log[..refused.used.log_words];
    assert_eq!(replay(&proof, 2, Mode::Live, Logged::Drawn, log), Err(refused));
}
