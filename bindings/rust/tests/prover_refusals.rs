//! The prover's and the sheet reader's numbers, each at its boundary, and what every buffer holds after each.
mod plain;

use accudrina::{prove, read_sheet, read_sheet_into, rooms, row_words, words_of, Element, Fraction, Mode, Refusal, Sum, Words, PRIME};
use plain::{
    lent::{marked, Lent, WORD},
    make::Source,
};
use Refusal::*;

/// A refused run over words leaves every buffer as it was.
fn refused(lent: &Lent, rows: &[u32], mode: Mode, sum: Sum, challenges: &[u32]) -> Refusal {
    let mut after = lent.clone();
    let refusal = after.prove_words(rows, mode, sum, challenges).unwrap_err();
    assert_eq!(&after, lent, "{refusal}");
    refusal
}

/// An honest case of so many rounds: rows and challenges as words, buffers to spare.
fn case(rounds: usize) -> (Vec<u32>, Vec<u32>, Lent) {
    let mut source = Source(rounds as u64);
    let (rows, challenges) = (source.zero_sum(rounds), source.challenges(rounds));
    (row_words(&rows), words_of(&challenges), Lent::spare(rounds, true))
}

fn zero(rows: &[u32], lent: &Lent, challenges: &[u32]) -> Refusal {
    refused(lent, rows, Mode::Live, Sum::AssertZero, challenges)
}

#[test]
fn n1_to_n3_counts_of_rows() {
    let (_, challenges, lent) = case(10);
    for words in [1, 7, 9, 31, 33, 8 * 1025 + 1, 8 * 2048 + 4] {
        assert_eq!(zero(&vec![PRIME; words], &lent, &[]), RaggedRows);
    }
    for rows in [1025, 1026, 2048, 4096] {
        assert_eq!(zero(&vec![PRIME; 8 * rows], &lent, &[]), TooManyRows);
    }
    for rows in [3, 5, 6, 7, 9, 1000, 1023] {
        assert_eq!(zero(&vec![PRIME; 8 * rows], &lent, &[]), NotPowerOfTwo);
    }
    let unused = [0, 0, 0, 0, 1, 0, 0, 0].repeat(1024);
    assert!(lent.clone().prove_words(&unused, Mode::Live, Sum::AssertZero, &challenges).is_ok());
}

#[test]
fn n4_challenges() {
    for n in 1..=10 {
        let (mut rows, challenges, lent) = case(n);
        let needed = rooms::challenge_words(n);
        assert!(lent.clone().prove_words(&rows, Mode::Live, Sum::AssertZero, &challenges[..needed]).is_ok());
        rows[0] = PRIME;
        for short in [0, needed - 4, needed - 1] {
            assert_eq!(zero(&rows, &Lent::exact(0, true), &challenges[..short]), ShortChallenges);
        }
    }
}

#[test]
fn n5_rooms() {
    for n in 1..=10 {
        let (mut rows, challenges, _) = case(n);
        let exact = Lent::exact(n, true);
        assert!(exact.clone().prove_words(&rows, Mode::Live, Sum::AssertZero, &challenges).is_ok());
        assert_eq!(refused(&exact, &rows, Mode::Live, Sum::Observe, &challenges), ShortRoom, "p is logged too");
        rows[0] = PRIME;
        let mut short = [exact.clone(), exact.clone(), exact.clone(), exact];
        short[0].proof.pop();
        short[1].point.pop();
        short[2].log.pop();
        short[3].work.pop();
        for lent in &short {
            assert_eq!(zero(&rows, lent, &challenges), ShortRoom);
        }
    }
    for rows in [0, 8] {
        let mut lent = Lent::exact(0, true);
        lent.proof.pop();
        assert_eq!(zero(&vec![0; rows], &lent, &[]), ShortRoom);
    }
}

fn bad_word(place: usize, list: Words) -> Refusal {
    BadWord { place: place as u32, list }
}

#[test]
fn n6_words() {
    for n in [1, 2, 5] {
        let (rows, challenges, lent) = case(n);
        for at in 0..rows.len() {
            let mut bad = rows.clone();
            bad[at] = PRIME;
            assert_eq!(zero(&bad, &lent, &challenges), bad_word(at, Words::Rows));
            bad[rows.len() - 1] = PRIME;
            assert_eq!(zero(&bad, &lent, &vec![PRIME; challenges.len()]), bad_word(at, Words::Rows));
        }
        for at in 0..challenges.len() {
            let mut bad = challenges.clone();
            bad[at] = if at % 2 == 0 { PRIME } else { u32::MAX };
            assert_eq!(zero(&rows, &lent, &bad), bad_word(at, Words::Challenges));
        }
        let unneeded = [challenges.clone(), vec![u32::MAX; 5]].concat();
        assert!(lent.clone().prove_words(&rows, Mode::Live, Sum::AssertZero, &unneeded).is_ok());
    }
    assert_eq!(zero(&[PRIME, 0, 0, 0, 1, 0, 0, 0], &Lent::exact(0, true), &[]), bad_word(0, Words::Rows));
    let most = [PRIME - 1; 16];
    assert!(Lent::exact(1, false).prove_words(&most, Mode::Live, Sum::Observe, &[PRIME - 1; 4]).is_ok());
}

#[test]
fn n7_rows_over_zero() {
    let (rows, challenges, lent) = case(4);
    for (row, later) in [(0, 15), (3, 4), (15, 15)] {
        let mut bad = rows.clone();
        for r in [row, later] {
            bad[8 * r..8 * r + 8].copy_from_slice(&[0, 0, 0, 1, 0, 0, 0, 0]);
        }
        assert_eq!(zero(&bad, &lent, &challenges), ZeroDenominator { row: row as u32 });
        assert_eq!(refused(&Lent::spare(4, false), &bad, Mode::Live, Sum::Observe, &challenges), ZeroDenominator { row: row as u32 });
        assert!(Lent::spare(4, false).prove_words(&bad, Mode::Sandbox, Sum::Observe, &challenges).is_ok());
    }
    for row in [0, 7, 15] {
        let mut empty = rows.clone();
        empty[8 * row..8 * row + 8].fill(0);
        assert_eq!(zero(&empty, &lent, &challenges), ZeroDenominator { row: row as u32 }, "0/0 is no unused row");
        let done = lent.clone().prove_words(&empty, Mode::Sandbox, Sum::AssertZero, &challenges).unwrap();
        assert_eq!(done.sum, Fraction::default());
    }
}

#[test]
fn n8_a_sum_that_is_not_zero() {
    for n in 1..=6 {
        let mut source = Source(n as u64);
        let (rows, challenges) = (source.rows(n), source.challenges(n));
        let before = Lent::spare(n, true);
        let mut after = before.clone();
        assert_eq!(after.prove(&rows, Mode::Live, Sum::AssertZero, &challenges), Err(NonZeroRootSum));
        assert_eq!(after.work, marked(&vec![0; rooms::workspace_words(n)], before.work.len()), "wiped, and no more");
        after.work = before.work.clone();
        assert_eq!(after, before);
    }
}

#[test]
fn n8_and_n9_one_row() {
    let lent = Lent::spare(0, true);
    let row = |p: u32, q: u32| row_words(&[Fraction::new(Element::new(p), Element::new(q))]);
    assert_eq!(zero(&row(1, 0), &lent, &[]), ZeroDenominator { row: 0 });
    assert_eq!(zero(&row(1, 1), &lent, &[]), NonZeroRootSum);
    assert_eq!(zero(&row(0, 1), &lent, &[]), SingleRow);
    assert_eq!(refused(&lent, &row(1, 1), Mode::Live, Sum::Observe, &[]), SingleRow);
    assert_eq!(refused(&lent, &row(1, 0), Mode::Sandbox, Sum::AssertZero, &[]), NonZeroRootSum);
}

#[test]
fn owned_buffers_are_never_too_short() {
    for rows in (0..=40).chain([1023, 1024, 1025, 2048]) {
        let rows = vec![Fraction::new(Element::ZERO, Element::ONE); rows];
        let challenges = vec![Element::ZERO; 64];
        let told = prove(&rows, Mode::Live, Sum::AssertZero, &challenges).map(|p| p.rounds).map_err(Refusal::from);
        match rows.len() {
            0 => assert_eq!(told, Ok(0)),
            1 => assert_eq!(told, Err(SingleRow)),
            k if k > 1024 => assert_eq!(told, Err(TooManyRows)),
            k if k.is_power_of_two() => assert_eq!(told, Ok(k.trailing_zeros() as usize)),
            _ => assert_eq!(told, Err(NotPowerOfTwo)),
        }
    }
}

/// The bytes of a sheet.
fn sheet(count: usize, words: &[u32]) -> Vec<u8> {
    [vec![1], (count as u16).to_be_bytes().to_vec(), words.iter().flat_map(|w| w.to_be_bytes()).collect()].concat()
}

/// A refused sheet leaves the rows as they were.
fn unread(bytes: &[u8], room: usize) -> Refusal {
    let mut rows = vec![WORD; room];
    let refusal = read_sheet_into(bytes, &mut rows).unwrap_err();
    assert_eq!(rows, vec![WORD; room]);
    refusal
}

#[test]
fn sheets_that_are_read() {
    for count in [0, 1, 2, 4, 512, 1024] {
        let words: Vec<u32> = (0..8 * count as u32).map(|i| PRIME - 1 - i).collect();
        let bytes = sheet(count, &words);
        let mut rows = vec![WORD; 8 * count + 3];
        assert_eq!(read_sheet_into(&bytes, &mut rows), Ok(count));
        assert_eq!(rows, marked(&words, rows.len()));
        assert_eq!(row_words(&read_sheet(&bytes).unwrap()), words);
    }
}

#[test]
fn sheets_that_are_refused() {
    for bytes in [&[][..], &[0], &[2, 0, 0], &[255, 0, 1]] {
        assert_eq!(unread(bytes, 0), BadVersion);
    }
    let two = sheet(2, &[PRIME; 16]);
    for bytes in [&two[..1], &two[..2], &two[..3], &two[..66], &[&two[..], &[0]].concat(), &sheet(3, &[0; 16]), &sheet(65535, &[])] {
        assert_eq!(unread(bytes, 0), BadLength);
    }
    assert_eq!(unread(&sheet(1025, &[PRIME; 8 * 1025]), 0), TooManyRows);
    assert_eq!(unread(&sheet(2048, &[PRIME; 8 * 2048]), 0), TooManyRows);
    assert_eq!(unread(&sheet(3, &[PRIME; 24]), 0), NotPowerOfTwo);
    assert_eq!(unread(&two, 15), ShortRoom);
    assert_eq!(unread(&two, 16), bad_word(0, Words::Rows));
    for at in 0..16 {
        let mut words = [0; 16];
        words[at] = PRIME;
        assert_eq!(unread(&sheet(2, &words), 16), bad_word(at, Words::Rows));
        assert_eq!(read_sheet(&sheet(2, &words)), Err(bad_word(at, Words::Rows)));
    }
}
