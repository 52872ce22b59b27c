//! The proof of a sheet with no rows: 0 rounds, valid in one mode and refused in the other.
use accudrina::*;

const MODES: [Mode; 2] = [Mode::Sandbox, Mode::Live];

fn proof() -> Vec<u8> {
    prove(&[], Mode::Live, Sum::AssertZero, Challenges::Drawn).unwrap().proof
}

fn refused(proof: &[u8], how: impl Into<Verifying>) -> Refusal {
    let refused = verify(proof, 0, how, Challenges::Drawn).unwrap_err();
    assert_eq!(refused.used, Used::default());
    refused.refusal
}

/// In every mode of proving and of verifying, with any challenges, and no room.
#[test]
fn no_rows_are_accepted() {
    for (mode, sum) in [(Mode::Live, Sum::AssertZero), (Mode::Sandbox, Sum::Observe)] {
        let proved = prove(&[], mode, sum, &[Element::new(7)]).unwrap();
        assert_eq!((proved.rounds, proved.proof.len()), (0, 23));
        for how in MODES.map(Mode::or_empty) {
            for challenges in [Challenges::Drawn, Challenges::Supplied(&[]), Challenges::Supplied(&[PRIME])] {
                let Verified { claims, used } = verify_into(&proved.proof, 0, how, challenges, &mut [], &mut []).unwrap();
                assert_eq!([used, proved.used], [Used::default(); 2]);
                assert_eq!(claims, evaluate(&[], &[]).unwrap());
                assert_eq!((claims.numer, claims.denom), (Element::ZERO, Element::new(1)));
            }
        }
    }
}

#[test]
fn the_old_mode_refuses_them() {
    for mode in MODES {
        assert_eq!(refused(&proof(), mode), Refusal::ZeroRounds);
        assert_eq!(refused(&[], mode), Refusal::ZeroRounds);
    }
}

/// Another q0 is 22 in both modes, 0 too: 27 is for one round or more.
#[test]
fn q0_is_one() {
    for (at, byte) in [(8, 0), (8, 2), (5, 1), (20, 1)] {
        let mut bytes = proof();
        bytes[at] = byte;
        let words: Vec<u32> = bytes[5..21].chunks(4).map(|b| u32::from_be_bytes(b.try_into().unwrap())).collect();
        let actual = Element(words.try_into().unwrap());
        for mode in MODES {
            assert_eq!(refused(&bytes, mode.or_empty()), Refusal::InvalidZeroRoundValue { actual });
        }
    }
}

/// 12, 13 and 6 come first, then both counts, then q0: K2's proof has one layer.
#[test]
fn the_order() {
    let half = |p| Fraction::new(Element::new(p), Element::new(2));
    let mut k2 = prove(&[half(1), half(PRIME - 1)], Mode::Live, Sum::AssertZero, Challenges::Drawn).unwrap().proof;
    let how = Mode::Live.or_empty();
    assert_eq!(refused(&k2, how), Refusal::IncorrectLayerCount { expected: 0, actual: 1 });
    k2[5] = 0xff;
    assert_eq!(refused(&k2, how), Refusal::BadWord { place: 0, list: Words::Proof });
    let mut entry = [&proof()[..], &[0]].concat();
    assert_eq!(refused(&entry, how), Refusal::BadLength);
    (entry[4], entry[22]) = (19, 1);
    assert_eq!(refused(&entry, how), Refusal::IncorrectSumcheckPolyCount { expected: 0, actual: 1 });
    entry[8] = 0;
    assert_eq!(refused(&entry, how), Refusal::IncorrectSumcheckPolyCount { expected: 0, actual: 1 });
    entry[0] = 3;
    assert_eq!(refused(&entry, how), Refusal::BadVersion);
}
