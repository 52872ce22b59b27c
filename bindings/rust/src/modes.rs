//! The modes of a call: types here, bits of one word in C.

/// Which rows are proved, and which sums are accepted.
#[derive(Clone, Copy, Debug, PartialEq, Eq)]
pub enum Mode {
    /// All.
    Sandbox,
    /// No row with q zero, an unused one is 0/1; and no sum with q zero, which says nothing about the rows.
    Live,
}

impl Mode {
    /// The same for a verifier to which 0 rounds are valid too: the proof of a sheet with no rows.
    pub fn or_empty(self) -> Verifying {
        Verifying { mode: self, empty: true }
    }

    /// The same for a prover whose proof binds its size: version 2. A verifier goes by the proof's own version.
    pub fn sized(self) -> Proving {
        Proving { mode: self, version: Version::Two }
    }
}

/// The version of a proof, which is its first byte.
#[derive(Clone, Copy, Debug, PartialEq, Eq)]
pub enum Version {
    /// Its log does not say how many rounds it belongs to.
    One,
    /// It binds its size: the number of rounds is observed before anything else, and so goes into every drawn challenge. The log is four words longer.
    Two,
}

impl Version {
    /// Of a stored proof; bytes of no known version, which are refused whatever the room, are taken for the first.
    pub fn of(proof: &[u8]) -> Self {
        if proof.first() == Some(&2) {
            Version::Two
        } else {
            Version::One
        }
    }
}

/// How a sheet is proved. A [`Mode`] alone is taken for a proof of version 1.
#[derive(Clone, Copy, Debug, PartialEq, Eq)]
pub struct Proving {
    pub mode: Mode,
    /// Of the new proof.
    pub version: Version,
}

impl From<Mode> for Proving {
    fn from(mode: Mode) -> Self {
        Proving { mode, version: Version::One }
    }
}

/// How a proof is verified. A [`Mode`] alone is taken for one in which 0 rounds are refused.
#[derive(Clone, Copy, Debug, PartialEq, Eq)]
pub struct Verifying {
    pub mode: Mode,
    /// Whether 0 rounds are valid.
    pub empty: bool,
}

impl From<Mode> for Verifying {
    fn from(mode: Mode) -> Self {
        Verifying { mode, empty: false }
    }
}

/// What is said of the sum.
#[derive(Clone, Copy, Debug, PartialEq, Eq)]
pub enum Sum {
    /// Its p is zero, or the run is refused.
    AssertZero,
    /// Its p is put into the log.
    Observe,
}

/// Where the challenges of a run come from. A list is taken for supplied ones.
#[derive(Clone, Copy, Debug, PartialEq, Eq)]
pub enum Challenges<'a, T> {
    /// From the caller. Whoever knows them before the proof is made can make one of a false sum.
    Supplied(&'a [T]),
    /// From the log, with SHAKE128: each over all that was written before it.
    Drawn,
}

impl<'a, T> From<&'a [T]> for Challenges<'a, T> {
    fn from(list: &'a [T]) -> Self {
        Challenges::Supplied(list)
    }
}

impl<'a, T> From<&'a Vec<T>> for Challenges<'a, T> {
    fn from(list: &'a Vec<T>) -> Self {
        Challenges::Supplied(list)
    }
}

impl<'a, T, const N: usize> From<&'a [T; N]> for Challenges<'a, T> {
    fn from(list: &'a [T; N]) -> Self {
        Challenges::Supplied(list)
    }
}

impl<'a, T> Challenges<'a, T> {
    /// Those that are lent to the call: none where they are drawn.
    pub(crate) fn lent(self) -> &'a [T] {
        match self {
            Challenges::Supplied(list) => list,
            Challenges::Drawn => &[],
        }
    }

    fn bit(self) -> u32 {
        match self {
            Challenges::Supplied(_) => 0,
            Challenges::Drawn => DRAWN,
        }
    }
}

const LIVE: u32 = 1;
const ASSERT_ZERO: u32 = 2;
const DRAWN: u32 = 4;
const SIZED: u32 = 8;
const EMPTY: u32 = 16;

/// Where the challenges of a log came from.
#[derive(Clone, Copy, Debug, PartialEq, Eq)]
pub enum Logged {
    /// From the caller of the run: those in the log are taken.
    Supplied,
    /// From the log: those in it must be the drawn ones.
    Drawn,
}

/// The word of a replay's modes.
pub(crate) fn replaying(how: Verifying, logged: Logged) -> u32 {
    verifying::<u32>(how, if logged == Logged::Drawn { Challenges::Drawn } else { Challenges::Supplied(&[]) })
}

/// The word of the verifier's modes.
pub(crate) fn verifying<T>(how: Verifying, challenges: Challenges<'_, T>) -> u32 {
    let live = if how.mode == Mode::Live { LIVE } else { 0 };
    let empty = if how.empty { EMPTY } else { 0 };
    live | empty | challenges.bit()
}

/// The word of the prover's modes.
pub(crate) fn proving<T>(how: Proving, sum: Sum, challenges: Challenges<'_, T>) -> u32 {
    verifying(how.mode.into(), challenges) | logging(sum, how.version)
}

/// What of it the room for the log looks at.
pub(crate) fn logging(sum: Sum, version: Version) -> u32 {
    let asserted = if sum == Sum::AssertZero { ASSERT_ZERO } else { 0 };
    let sized = if version == Version::Two { SIZED } else { 0 };
    asserted | sized
}

#[cfg(test)]
mod tests {
    use super::*;
    use crate::{ffi, Refusal};

    const UNKNOWN: [u32; 8] = [24, 32, 48, 64, 1 << 30, 1 << 31, 33, u32::MAX];

    /// The call's number and answer over four marked buffers, which are as before; the answer was marked too.
    fn prove(rows: &[u32], modes: u32) -> (u32, ffi::Answer) {
        let (mut proof, mut words, mut answer) = ([0xa5; 100], [[9; 100]; 3], [9; 16]);
        let [point, log, work] = &mut words;
        let challenges = [5, 0, 0, 0];
        let number = unsafe {
            ffi::accudrina_prove(
                rows.as_ptr(),
                rows.len(),
                modes,
                challenges.as_ptr(),
                4,
                proof.as_mut_ptr(),
                100,
                point.as_mut_ptr(),
                100,
                log.as_mut_ptr(),
                100,
                work.as_mut_ptr(),
                100,
                &mut answer,
            )
        };
        assert!(number == 0 || (proof, words) == ([0xa5; 100], [[9; 100]; 3]));
        (number, answer)
    }

    /// The same, over two buffers.
    fn verify(proof: &[u8], rounds: usize, modes: u32) -> (u32, ffi::Answer) {
        let (mut words, mut answer) = ([[9; 100]; 2], [9; 16]);
        let [point, log] = &mut words;
        let challenges = [5, 0, 0, 0];
        let number = unsafe {
            ffi::accudrina_verify(
                proof.as_ptr(),
                proof.len(),
                rounds,
                modes,
                challenges.as_ptr(),
                4,
                point.as_mut_ptr(),
                100,
                log.as_mut_ptr(),
                100,
                &mut answer,
            )
        };
        assert!(number == 0 || number == 17 || words == [[9; 100]; 2]);
        (number, answer)
    }

    fn told(bits: u32) -> (u32, ffi::Answer) {
        let mut answer = [0; 16];
        answer[..2].copy_from_slice(&[28, bits]);
        assert_eq!(Refusal::told(&answer), Refusal::UnknownMode { bits });
        assert_eq!(Refusal::told(&answer).number(), 28);
        (28, answer)
    }

    #[test]
    fn unknown_bits_are_refused_first_of_all() {
        let zero_sum = [1, 0, 0, 0, 2, 0, 0, 0, crate::PRIME - 1, 0, 0, 0, 2, 0, 0, 0];
        for modes in [16, 17].into_iter().chain(UNKNOWN) {
            for rows in [&zero_sum[..], &zero_sum[..7], &[]] {
                assert_eq!(prove(rows, modes), told(modes & !15));
            }
        }
        for modes in 0..16 {
            assert_eq!(prove(&zero_sum, modes).0, 0);
        }
    }

    #[test]
    fn the_verifier_takes_three_bits() {
        let half = |p| crate::Fraction::new(crate::Element::new(p), crate::Element::new(2));
        let rows = [half(1), half(crate::PRIME - 1)];
        let proof = crate::prove(&rows, Mode::Live, Sum::AssertZero, &[crate::Element::new(5)]).unwrap().proof;
        for modes in [2, 3, 6, 7, 8, 9, 12, 18].into_iter().chain(UNKNOWN) {
            for (bytes, rounds) in [(&proof[..], 1), (&[], 1), (&proof[..], 0), (&proof[..], 11)] {
                assert_eq!(verify(bytes, rounds, modes), told(modes & !21));
            }
        }
        // With one round nothing is asked of mu: accepted whatever it is.
        assert_eq!([0, 1, 4, 5, 16, 17, 20, 21].map(|modes| verify(&proof, 1, modes).0), [0; 8]);
        let mut over_zero = proof;
        over_zero[5..21].fill(0);
        assert_eq!([0, 1, 4, 5, 16, 21].map(|modes| verify(&over_zero, 1, modes).0), [17, 27, 17, 27, 17, 27]);
    }

    #[test]
    fn room_for_the_log_looks_at_two_bits() {
        for modes in (0..16).chain(UNKNOWN) {
            let asked = [0, 1, 2, 10, 11].map(|n| unsafe { ffi::accudrina_log_words(n, modes) });
            let more = if modes & 2 == 2 { 0 } else { 4 } + if modes & 8 == 8 { 4 } else { 0 };
            assert_eq!(asked, [0, 24 + more, 64 + more, 960 + more, 0]);
        }
    }
}
