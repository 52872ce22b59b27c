//! Challenges that are drawn from the log by both sides, and by one of them only.
mod plain;

use accudrina::*;
use plain::make::{row, zero_sum};

#[test]
fn both_draw() {
    for rounds in 1..=10 {
        let rows = zero_sum(rounds);
        let proved = prove(&rows, Mode::Live, Sum::AssertZero, Challenges::Drawn).unwrap();
        let accepted = verify(&proved.proof, proved.rounds, Mode::Live, Challenges::Drawn).unwrap();
        assert_eq!((&accepted.point, &accepted.log), (&proved.point, &proved.log));
        assert_eq!(evaluate(&rows, &accepted.point).unwrap(), accepted.claims);
        let challenges = 2 * rounds - 1 + rounds * (rounds - 1) / 2;
        assert!(proved.log.iter().filter(|w| **w >> 31 == 1).count() == 4 * challenges);
        assert_eq!([proved.used, accepted.used], [Used { challenges, log_words: proved.log.len() }; 2]);
    }
}

/// A sampled word in the log goes with all that is before it: another row, another challenge.
#[test]
fn what_is_drawn_depends_on_the_rows() {
    let (one, other) = (zero_sum(2), [row(1, 2), row(PRIME - 1, 2), row(3, 5), row(PRIME - 3, 5)]);
    let point = |rows: &[Fraction]| prove(rows, Mode::Live, Sum::AssertZero, Challenges::Drawn).unwrap().point;
    assert_ne!(point(&one), point(&other));
    assert_eq!(point(&one), point(&one));
}

/// Only one side draws: from two rounds on the last check finds it.
#[test]
fn one_side_draws() {
    let counted: Vec<Element> = (1..=64).map(Element::new).collect();
    for rounds in 2..=10 {
        let rows = zero_sum(rounds);
        let drawn = prove(&rows, Mode::Live, Sum::AssertZero, Challenges::Drawn).unwrap();
        let supplied = prove(&rows, Mode::Live, Sum::AssertZero, &counted).unwrap();
        let here = verify(&drawn.proof, rounds, Mode::Live, &counted).unwrap_err();
        let there = verify(&supplied.proof, rounds, Mode::Live, Challenges::Drawn).unwrap_err();
        assert_eq!([here.number(), there.number()], [19, 19]);
    }
}
