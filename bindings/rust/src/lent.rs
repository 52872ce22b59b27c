//! The calls over lent buffers, as C has them. They ask nothing of a slice: any content and any length gets an answer.
use crate::{
    ffi,
    modes::{self, Challenges, Logged, Proving, Sum, Verifying},
    Element, Fraction, Refusal, Refused, Used,
};

/// The buffers of a proving run.
pub struct Rooms<'a> {
    pub proof: &'a mut [u8],
    pub point: &'a mut [u32],
    pub log: &'a mut [u32],
    pub work: &'a mut [u32],
}

/// A proving run that is done.
#[derive(Clone, Copy, Debug, PartialEq, Eq)]
pub struct Done {
    pub rounds: usize,
    pub sum: Fraction,
    pub used: Used,
}

/// What an accepted proof claims: values of a sheet's columns p and q at the point. Whether they are your sheet's is for you to compare.
#[derive(Clone, Copy, Debug, PartialEq, Eq)]
pub struct Claims {
    pub numer: Element,
    pub denom: Element,
}

/// A proof that is accepted.
#[derive(Clone, Copy, Debug, PartialEq, Eq)]
pub struct Verified {
    pub claims: Claims,
    pub used: Used,
}

/// A sheet's own values at a point.
#[derive(Clone, Copy, Debug, PartialEq, Eq)]
pub struct Evaluated {
    pub rounds: usize,
    /// Of the columns p and q: what an honest proof claims there.
    pub values: Claims,
}

fn element(answer: &ffi::Answer, at: usize) -> Element {
    Element([answer[at], answer[at + 1], answer[at + 2], answer[at + 3]])
}

fn claims(answer: &ffi::Answer) -> Claims {
    Claims { numer: element(answer, 4), denom: element(answer, 8) }
}

/// Reads a sheet's bytes into words, eight a row; answers the number of rows.
pub fn read_sheet_into(sheet: &[u8], rows: &mut [u32]) -> Result<usize, Refusal> {
    let mut answer = [0; 16];
    // Safe: each pointer comes with its own slice's length, and no two overlap.
    let number = unsafe { ffi::accudrina_read_sheet(sheet.as_ptr(), sheet.len(), rows.as_mut_ptr(), rows.len(), &mut answer) };
    match number {
        0 => Ok(answer[1] as usize),
        _ => Err(Refusal::told(&answer)),
    }
}

/// Proves the rows, eight words each, with challenges that are drawn or given, four words each.
pub fn prove_into<'a>(
    rows: &[u32],
    how: impl Into<Proving>,
    sum: Sum,
    challenges: impl Into<Challenges<'a, u32>>,
    rooms: Rooms<'_>,
) -> Result<Done, Refused> {
    let challenges = challenges.into();
    let modes = modes::proving(how.into(), sum, challenges);
    let lent = challenges.lent();
    let mut answer = [0; 16];
    // Safe: as in `read_sheet_into`.
    let number = unsafe {
        ffi::accudrina_prove(
            rows.as_ptr(),
            rows.len(),
            modes,
            lent.as_ptr(),
            lent.len(),
            rooms.proof.as_mut_ptr(),
            rooms.proof.len(),
            rooms.point.as_mut_ptr(),
            rooms.point.len(),
            rooms.log.as_mut_ptr(),
            rooms.log.len(),
            rooms.work.as_mut_ptr(),
            rooms.work.len(),
            &mut answer,
        )
    };
    match number {
        0 => {
            let sum = Fraction::new(element(&answer, 4), element(&answer, 8));
            Ok(Done { rounds: answer[1] as usize, sum, used: Used::told(&answer) })
        }
        _ => Err(Refused::told(&answer)),
    }
}

/// The answer of the verifier and of a replay.
fn verdict(number: u32, answer: &ffi::Answer) -> Result<Verified, Refused> {
    match number {
        0 => Ok(Verified { claims: claims(answer), used: Used::told(answer) }),
        _ => Err(Refused::told(answer)),
    }
}

/// Verifies a proof of so many rounds, by its exact bytes.
pub fn verify_into<'a>(
    proof: &[u8],
    rounds: usize,
    how: impl Into<Verifying>,
    challenges: impl Into<Challenges<'a, u32>>,
    point: &mut [u32],
    log: &mut [u32],
) -> Result<Verified, Refused> {
    let challenges = challenges.into();
    let modes = modes::verifying(how.into(), challenges);
    let lent = challenges.lent();
    let mut answer = [0; 16];
    // Safe: as in `read_sheet_into`.
    let number = unsafe {
        ffi::accudrina_verify(
            proof.as_ptr(),
            proof.len(),
            rounds,
            modes,
            lent.as_ptr(),
            lent.len(),
            point.as_mut_ptr(),
            point.len(),
            log.as_mut_ptr(),
            log.len(),
            &mut answer,
        )
    };
    verdict(number, &answer)
}

/// Replays a proof of so many rounds, by its exact bytes, from the log of a run; only the point is written.
pub fn replay_into(
    proof: &[u8],
    rounds: usize,
    how: impl Into<Verifying>,
    logged: Logged,
    log: &[u32],
    point: &mut [u32],
) -> Result<Verified, Refused> {
    let modes = modes::replaying(how.into(), logged);
    let mut answer = [0; 16];
    // Safe: as in `read_sheet_into`.
    let number = unsafe {
        ffi::accudrina_replay(
            proof.as_ptr(),
            proof.len(),
            rounds,
            modes,
            log.as_ptr(),
            log.len(),
            point.as_mut_ptr(),
            point.len(),
            &mut answer,
        )
    };
    verdict(number, &answer)
}

/// Evaluates both columns of the rows, eight words each, at a point, four words a coordinate; only reads.
pub fn evaluate_words(rows: &[u32], point: &[u32]) -> Result<Evaluated, Refusal> {
    let mut answer = [0; 16];
    // Safe: as in `read_sheet_into`.
    let number = unsafe { ffi::accudrina_evaluate(rows.as_ptr(), rows.len(), point.as_ptr(), point.len(), &mut answer) };
    match number {
        0 => Ok(Evaluated { rounds: answer[1] as usize, values: claims(&answer) }),
        _ => Err(Refusal::told(&answer)),
    }
}
