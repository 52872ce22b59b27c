//! The values of a sheet at a point: against the plain sum over all rows, against the claims of accepted proofs, and refused.
mod plain;

use accudrina::{
    evaluate, evaluate_words, prove, row_words, verify, words_of, Claims, Element, Fraction, Mode, Refusal, Sum, Words, PRIME,
};
use plain::{field::value, make::Source};

/// Both columns, summed up plainly.
fn values(rows: &[Fraction], point: &[Element]) -> Claims {
    let (p, q): (Vec<_>, Vec<_>) = rows.iter().map(|r| (r.p, r.q)).unzip();
    Claims { numer: value(&p, point), denom: value(&q, point) }
}

#[test]
fn the_plain_sums() {
    for n in 0..=10 {
        let mut source = Source(n as u64);
        let rows = source.rows(n);
        let point: Vec<Element> = source.challenges(n.max(1)).into_iter().take(n).collect();
        assert_eq!(evaluate(&rows, &point), Ok(values(&rows, &point)), "n = {n}");
        assert_eq!(evaluate_words(&row_words(&rows), &words_of(&point)).unwrap().rounds, n);
    }
}

#[test]
fn what_an_accepted_proof_claims() {
    for n in 1..=10 {
        let mut source = Source(400 + n as u64);
        let (rows, challenges) = (source.zero_sum(n), source.challenges(n));
        let proved = prove(&rows, Mode::Live, Sum::AssertZero, &challenges).unwrap();
        let accepted = verify(&proved.proof, n, Mode::Live, &challenges).unwrap();
        assert_eq!(evaluate(&rows, &accepted.point), Ok(accepted.claims));
        let mut other = rows.clone();
        other.swap(0, 1);
        assert_ne!(evaluate(&other, &accepted.point), Ok(accepted.claims), "another sheet, n = {n}");
    }
}

#[test]
fn at_a_corner_a_row() {
    let rows = Source(1).rows(3);
    for (i, row) in rows.iter().enumerate() {
        let corner: Vec<Element> = (0..3).map(|k| Element::new((i >> k & 1) as u32)).collect();
        assert_eq!(evaluate(&rows, &corner), Ok(Claims { numer: row.p, denom: row.q }));
    }
}

#[test]
fn no_rows_and_one() {
    assert_eq!(evaluate(&[], &[]), Ok(Claims { numer: Element::ZERO, denom: Element::ONE }));
    assert_eq!(evaluate(&[], &[Element::ONE]), Err(Refusal::BadLength));
    let row = Source(2).rows(0)[0];
    assert_eq!(evaluate(&[row], &[]), Ok(Claims { numer: row.p, denom: row.q }));
    assert_eq!(evaluate(&[row], &[Element::ONE]), Err(Refusal::BadLength));
}

#[test]
fn refused_in_their_order() {
    let bad = |k| vec![PRIME; k];
    assert_eq!(evaluate_words(&bad(9), &bad(1)), Err(Refusal::RaggedRows));
    assert_eq!(evaluate_words(&bad(8 * 1025), &bad(1)), Err(Refusal::TooManyRows));
    assert_eq!(evaluate_words(&bad(8 * 3), &bad(1)), Err(Refusal::NotPowerOfTwo));
    for words in [0, 1, 3, 5, 8] {
        assert_eq!(evaluate_words(&bad(16), &bad(words)), Err(Refusal::BadLength));
    }
    let first = |list| Err(Refusal::BadWord { place: 0, list });
    assert_eq!(evaluate_words(&bad(16), &bad(4)), first(Words::Rows));
    assert_eq!(evaluate_words(&[1; 16], &bad(4)), first(Words::Point));
    assert!(evaluate_words(&[PRIME - 1; 16], &[PRIME - 1; 4]).is_ok());
}
