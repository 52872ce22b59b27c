//! Honest runs of every size: the answers, every buffer, and the claims against the plain sum over all rows.
mod plain;

use accudrina::{prove, rooms, verify, words_of, Element, Fraction, Mode, Refusal, Refused, Sum, Used};
use plain::{
    field::{root, value},
    lent::{marked, marked_bytes, Lent},
    make::Source,
};

/// The two columns of rows.
fn columns(rows: &[Fraction]) -> (Vec<Element>, Vec<Element>) {
    rows.iter().map(|r| (r.p, r.q)).unzip()
}

#[test]
fn accepted_with_the_true_values() {
    for n in 1..=10 {
        let mut source = Source(n as u64);
        let (rows, challenges) = (source.zero_sum(n), source.challenges(n));
        for mode in [Mode::Sandbox, Mode::Live] {
            let proved = prove(&rows, mode, Sum::AssertZero, &challenges).unwrap();
            assert_eq!((proved.rounds, proved.sum), (n, root(&rows)));
            let accepted = verify(&proved.proof, n, mode, &challenges).unwrap();
            assert_eq!((&accepted.point, &accepted.log, accepted.used), (&proved.point, &proved.log, proved.used));
            assert_eq!(proved.used, Used { challenges: challenges.len(), log_words: 8 * n * n + 16 * n });
            let (p, q) = columns(&rows);
            assert_eq!(accepted.claims.numer, value(&p, &proved.point), "n = {n}");
            assert_eq!(accepted.claims.denom, value(&q, &proved.point), "n = {n}");
        }
    }
}

#[test]
fn the_plain_run_writes_the_same() {
    for n in 1..=8 {
        let mut source = Source(100 + n as u64);
        let challenges = source.challenges(n);
        for (rows, sum) in [(source.zero_sum(n), Sum::AssertZero), (source.rows(n), Sum::Observe)] {
            let asserted = sum == Sum::AssertZero;
            let (proof, point, log) = plain::prover::prove(&rows, asserted, &challenges);
            let mut lent = Lent::spare(n, asserted);
            let done = lent.prove(&rows, Mode::Sandbox, sum, &challenges).unwrap();
            assert_eq!((done.rounds, done.sum), (n, root(&rows)));
            assert_eq!(lent.proof, marked_bytes(&proof.bytes(), lent.proof.len()));
            assert_eq!(lent.point, marked(&words_of(&point), lent.point.len()));
            assert_eq!(lent.log, marked(&log, lent.log.len()));
            assert_eq!(lent.work, marked(&vec![0; rooms::workspace_words(n)], lent.work.len()), "wiped, and no more");
        }
    }
}

#[test]
fn an_observed_sum_that_is_not_zero_is_turned_away() {
    for n in 1..=10 {
        let mut source = Source(200 + n as u64);
        let (rows, challenges) = (source.rows(n), source.challenges(n));
        let proved = prove(&rows, Mode::Live, Sum::Observe, &challenges).unwrap();
        assert_eq!(proved.used, Used { challenges: challenges.len(), log_words: 8 * n * n + 16 * n + 4 });
        let refused = Refused { refusal: Refusal::NonZeroRootSum, used: Used::default() };
        assert_eq!(prove(&rows, Mode::Live, Sum::AssertZero, &challenges), Err(refused));
        let refused = Refused { refusal: Refusal::ZeroCheckFailed { actual: proved.sum.p }, used: Used { challenges: 0, log_words: 20 } };
        assert_eq!(verify(&proved.proof, n, Mode::Live, &challenges), Err(refused));
    }
}

#[test]
fn no_rows() {
    for sum in [Sum::AssertZero, Sum::Observe] {
        let proved = prove(&[], Mode::Live, sum, &[]).unwrap();
        assert_eq!((proved.rounds, proved.sum), (0, Fraction::new(Element::ZERO, Element::ONE)));
        assert_eq!(proved.proof, [&[1, 0, 0, 0, 18, 0, 0, 0, 1][..], &[0; 14]].concat());
        assert!(proved.point.is_empty() && proved.log.is_empty() && proved.used == Used::default());
        let refused = Refused { refusal: Refusal::ZeroRounds, used: Used::default() };
        assert_eq!(verify(&proved.proof, 0, Mode::Live, &[]), Err(refused));
    }
}

#[test]
fn what_buffers_held_before_changes_nothing() {
    let mut source = Source(300);
    let (rows, challenges) = (source.zero_sum(5), source.challenges(5));
    let (mut cleared, mut held) = (Lent::exact(5, true), Lent::exact(5, true));
    cleared.proof.fill(0);
    for words in [&mut cleared.point, &mut cleared.log, &mut cleared.work] {
        words.fill(0);
    }
    let done = cleared.prove(&rows, Mode::Live, Sum::AssertZero, &challenges);
    assert_eq!(held.prove(&rows, Mode::Live, Sum::AssertZero, &challenges), done);
    assert_eq!(held, cleared);
}

#[test]
fn threads_do_not_meet() {
    let run = |seed| {
        let mut source = Source(seed);
        let (rows, challenges) = (source.zero_sum(6), source.challenges(6));
        let proved = prove(&rows, Mode::Live, Sum::AssertZero, &challenges).unwrap();
        (verify(&proved.proof, 6, Mode::Live, &challenges).unwrap(), proved)
    };
    let alone: Vec<_> = (0..8).map(run).collect();
    let together: Vec<_> = std::thread::scope(|s| {
        let threads: Vec<_> = (0..8).map(|seed| s.spawn(move || run(seed))).collect();
        threads.into_iter().map(|t| t.join().unwrap()).collect()
    });
    assert_eq!(alone, together);
}
