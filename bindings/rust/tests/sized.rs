//! Proofs that bind their size: version 2, whose log begins with the number of rounds.
mod plain;

use accudrina::*;
use plain::make::{counted, zero_sum};

/// With supplied challenges the version and the front of the log are all that differs.
#[test]
fn supplied() {
    for n in 1..=10 {
        for sum in [Sum::AssertZero, Sum::Observe] {
            let first = prove(&zero_sum(n), Mode::Live, sum, &counted()).unwrap();
            let second = prove(&zero_sum(n), Mode::Live.sized(), sum, &counted()).unwrap();
            assert_eq!((Version::of(&first.proof), Version::of(&second.proof)), (Version::One, Version::Two));
            assert_eq!(second.proof, [&[2], &first.proof[1..]].concat());
            assert_eq!(second.log, [&[n as u32, 0, 0, 0], &first.log[..]].concat());
            assert_eq!((&second.point, second.sum), (&first.point, first.sum));
            let used = Used { log_words: first.used.log_words + 4, ..first.used };
            assert_eq!(second.used, used);
            if sum == Sum::AssertZero {
                let accepted = verify(&second.proof, n, Mode::Live, &counted()).unwrap();
                assert_eq!((accepted.log, accepted.point, accepted.used), (second.log, second.point, used));
                assert_eq!(accepted.claims, verify(&first.proof, n, Mode::Live, &counted()).unwrap().claims);
            }
        }
    }
}

/// The size goes into every drawn challenge.
#[test]
fn drawn() {
    for n in 1..=10 {
        let rows = zero_sum(n);
        let first = prove(&rows, Mode::Live, Sum::AssertZero, Challenges::Drawn).unwrap();
        let second = prove(&rows, Mode::Live.sized(), Sum::AssertZero, Challenges::Drawn).unwrap();
        assert_ne!(first.point, second.point);
        let accepted = verify(&second.proof, n, Mode::Live, Challenges::Drawn).unwrap();
        assert_eq!((&accepted.log, &accepted.point), (&second.log, &second.point));
        assert_eq!(evaluate(&rows, &accepted.point).unwrap(), accepted.claims);
        // A version that is not the proof's own: from two rounds on the last check finds it, with one round the point is another.
        for (proof, version) in [(&first.proof, 2), (&second.proof, 1)] {
            let told = verify(&[&[version], &proof[1..]].concat(), n, Mode::Live, Challenges::Drawn);
            assert_eq!(told.map_err(|r| r.number()).map(|_| n), if n == 1 { Ok(1) } else { Err(19) });
        }
    }
}

/// Nothing is observed, and either version is read.
#[test]
fn no_rows() {
    let proved = prove(&[], Mode::Live.sized(), Sum::AssertZero, Challenges::Drawn).unwrap();
    assert_eq!((proved.proof.len(), proved.proof[0], proved.used), (23, 2, Used::default()));
    let accepted = verify(&proved.proof, 0, Mode::Live.or_empty(), Challenges::Drawn).unwrap();
    assert_eq!((accepted.claims, accepted.used), (evaluate(&[], &[]).unwrap(), Used::default()));
    assert_eq!(verify(&proved.proof, 0, Mode::Live, Challenges::Drawn).unwrap_err().refusal, Refusal::ZeroRounds);
}

/// The prover asks for the room of the version that is picked.
#[test]
fn room() {
    let rows = row_words(&zero_sum(2));
    for (how, words) in [(Proving::from(Mode::Live), 64), (Mode::Live.sized(), 68)] {
        for less in [0, 1, 4] {
            let (mut proof, mut point, mut log, mut work) = ([0; 200], [0; 8], vec![0; words - less], [0; 128]);
            let rooms = Rooms { proof: &mut proof, point: &mut point, log: &mut log, work: &mut work };
            let told = prove_into(&rows, how, Sum::AssertZero, Challenges::Drawn, rooms).map(|done| done.used.log_words);
            assert_eq!(told.map_err(Refusal::from), if less == 0 { Ok(words) } else { Err(Refusal::ShortRoom) });
        }
    }
}
