//! The calls with buffers made to measure.
use crate::{
    element::{elements_of, row_words, words_of},
    lent::{evaluate_words, prove_into, read_sheet_into, replay_into, verify_into, Claims, Rooms, Verified},
    modes::{Challenges, Logged, Proving, Sum, Verifying, Version},
    rooms, Element, Fraction, Refusal, Refused, Used,
};

/// A proof, with what its run left.
#[derive(Clone, Debug, PartialEq, Eq)]
pub struct Proved {
    pub rounds: usize,
    pub sum: Fraction,
    pub proof: Vec<u8>,
    pub point: Vec<Element>,
    pub log: Vec<u32>,
    pub used: Used,
}

/// What an accepted proof claims, where, and the log of the run.
#[derive(Clone, Debug, PartialEq, Eq)]
pub struct Accepted {
    pub claims: Claims,
    pub point: Vec<Element>,
    pub log: Vec<u32>,
    pub used: Used,
}

/// The words of challenges that are supplied; none are where they are drawn.
fn words(challenges: Challenges<'_, Element>) -> Option<Vec<u32>> {
    match challenges {
        Challenges::Supplied(list) => Some(words_of(list)),
        Challenges::Drawn => None,
    }
}

fn again(words: &Option<Vec<u32>>) -> Challenges<'_, u32> {
    words.as_ref().map_or(Challenges::Drawn, |list| Challenges::Supplied(list))
}

/// The rows of a stored sheet.
pub fn read_sheet(sheet: &[u8]) -> Result<Vec<Fraction>, Refusal> {
    // The count stands in the bytes. Where it is wrong or above 1,024, the sheet is refused whatever the room.
    let count = sheet.get(1..3).map_or(0, |b| usize::from(b[0]) << 8 | usize::from(b[1]));
    let mut words = vec![0; 8 * count.min(1024)];
    let count = read_sheet_into(sheet, &mut words)?;
    let elements = elements_of(&words[..8 * count]);
    Ok(elements.chunks_exact(2).map(|e| Fraction::new(e[0], e[1])).collect())
}

/// A proof of the rows. A sum whose q is zero is proved too, and says nothing about the rows: look at [`Proved::sum`]. With [`crate::Mode::sized`] it has
/// version 2.
pub fn prove<'a>(
    rows: &[Fraction],
    how: impl Into<Proving>,
    sum: Sum,
    challenges: impl Into<Challenges<'a, Element>>,
) -> Result<Proved, Refused> {
    let (n, how) = (rooms::rounds(rows.len()), how.into());
    let mut proof = vec![0; rooms::proof_bytes(n)];
    let mut point = vec![0; rooms::point_words(n)];
    let mut log = vec![0; rooms::log_words(n, sum, how.version)];
    let mut work = vec![0; rooms::workspace_words(n)];
    let lent = Rooms { proof: &mut proof, point: &mut point, log: &mut log, work: &mut work };
    let words = words(challenges.into());
    let done = prove_into(&row_words(rows), how, sum, again(&words), lent)?;
    Ok(Proved { rounds: done.rounds, sum: done.sum, proof, point: elements_of(&point), log, used: done.used })
}

/// The claims of a proof of so many rounds, if it is accepted. The proof's exact bytes are asked for, of either version. In [`crate::Mode::Live`] a sum whose q is zero
/// is refused; in [`crate::Mode::Sandbox`] it is accepted, and says nothing about the rows. The proof of a sheet with no rows, of 0 rounds, is accepted with
/// [`crate::Mode::or_empty`] alone.
///
/// The sheet is not seen: compare the claims with its own values at the point. Of a proof that [`prove`] made with
/// [`Sum::AssertZero`] and the same challenges, or with both drawn, it is proved that it is accepted, that they are these values, and that point and log are the
/// prover's; in [`crate::Mode::Live`] where no row has q zero, and so where it was proved in that mode.
pub fn verify<'a>(
    proof: &[u8],
    rounds: usize,
    how: impl Into<Verifying>,
    challenges: impl Into<Challenges<'a, Element>>,
) -> Result<Accepted, Refused> {
    let mut point = vec![0; rooms::point_words(rounds)];
    let mut log = vec![0; rooms::log_words(rounds, Sum::AssertZero, Version::of(proof))];
    let words = words(challenges.into());
    let Verified { claims, used } = verify_into(proof, rounds, how, again(&words), &mut point, &mut log)?;
    Ok(Accepted { claims, point: elements_of(&point), log, used })
}

/// What a replay of an accepted proof claims, and where.
#[derive(Clone, Debug, PartialEq, Eq)]
pub struct Replayed {
    pub claims: Claims,
    pub point: Vec<Element>,
    pub used: Used,
}

/// The verdict of a proof of so many rounds from the log of a run alone: that of [`verify`] on the log's challenges, if the log is exactly the one that it leaves. It says
/// nothing about where these challenges came from.
pub fn replay(proof: &[u8], rounds: usize, how: impl Into<Verifying>, logged: Logged, log: &[u32]) -> Result<Replayed, Refused> {
    let mut point = vec![0; rooms::point_words(rounds)];
    let Verified { claims, used } = replay_into(proof, rounds, how, logged, log, &mut point)?;
    Ok(Replayed { claims, point: elements_of(&point), used })
}

/// The values of both columns of the rows at a point: compare them with the claims of a proof that was accepted with that point.
pub fn evaluate(rows: &[Fraction], point: &[Element]) -> Result<Claims, Refusal> {
    Ok(evaluate_words(&row_words(rows), &words_of(point))?.values)
}
