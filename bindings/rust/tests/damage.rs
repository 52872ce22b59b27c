//! Random damage: no call panics, none is accepted with other claims, and each answer is that of the plain run.
mod plain;

use accudrina::{prove, read_sheet, verify, words_of, Accepted, Element, Mode, Refusal, Sum};
use plain::{
    lent::{marked, used, Lent},
    make::Source,
};
use std::collections::BTreeSet;

/// Another form of some bytes.
fn damaged(source: &mut Source, bytes: &[u8]) -> Vec<u8> {
    let mut bad = bytes.to_vec();
    match source.below(8) {
        0 => bad.truncate(source.below(bytes.len() + 1)),
        1 => bad.extend((0..1 + source.below(70)).map(|k| k as u8)),
        2 => drop(bad.remove(source.below(bytes.len()))),
        3 => bad.swap(source.below(bytes.len()), source.below(bytes.len())),
        4 => bad[0] = source.next() as u8,
        5 => bad = rebuilt(source, bytes),
        _ => {
            for _ in 0..1 + source.below(3) {
                let at = source.below(bytes.len());
                bad[at] ^= 1 << source.below(8);
            }
        }
    }
    bad
}

/// A layer, an entry or a sub-round more or less, or another element, with every length and count made to fit.
fn rebuilt(source: &mut Source, bytes: &[u8]) -> Vec<u8> {
    let mut proof = plain::verifier::parse(bytes).unwrap();
    let (layer, entry) = (source.below(proof.layers.len()), source.below(proof.polys.len().max(1)));
    match source.below(7) {
        0 => drop(proof.layers.remove(layer)),
        1 => proof.layers.insert(layer, proof.layers[layer]),
        2 => drop(proof.polys.pop()),
        3 => proof.polys.push(vec![]),
        4 => proof.polys.iter_mut().skip(entry).take(1).for_each(|e| e.truncate(e.len() - 1)),
        5 => proof.polys.iter_mut().skip(entry).take(1).for_each(|e| e.push([source.element(); 3])),
        _ => proof.layers[layer][source.below(4)] = source.element(),
    }
    proof.bytes()
}

/// Ours and the plain run agree on the answer, the log and the point.
fn compare(bytes: &[u8], rounds: usize, mode: Mode, challenges: &[Element]) -> Result<Accepted, Refusal> {
    let (verdict, log) = plain::verifier::verify(bytes, rounds, mode, challenges);
    let mut lent = Lent::spare(rounds, true);
    let told = lent.verify(bytes, rounds, mode, challenges);
    assert_eq!(told, verdict.clone().map(|v| v.0));
    assert_eq!(lent.log, marked(&log, lent.log.len()));
    assert_eq!(lent.point, marked(&verdict.map_or(vec![], |v| words_of(&v.1)), lent.point.len()));
    let owned = verify(bytes, rounds, mode, challenges);
    assert_eq!(owned.as_ref().map_or_else(|r| r.used, |a| a.used), used(&log));
    let owned = owned.map_err(Refusal::from);
    assert_eq!(owned.as_ref().map(|a| a.claims), told.as_ref().copied());
    owned
}

#[test]
fn damaged_proofs() {
    let mut source = Source(7);
    let mut numbers = BTreeSet::new();
    for n in 1..=6 {
        let (rows, challenges) = (source.zero_sum(n), source.challenges(n));
        let proof = prove(&rows, Mode::Live, Sum::AssertZero, &challenges).unwrap().proof;
        let honest = compare(&proof, n, Mode::Live, &challenges).unwrap();
        for k in 0..2000 {
            let mode = if k % 2 == 0 { Mode::Sandbox } else { Mode::Live };
            match compare(&damaged(&mut source, &proof), n, mode, &challenges) {
                // A proof of one round is its two rows: damage may give that of other rows. With supplied challenges the other version is accepted too.
                Ok(accepted) => assert!(n == 1 || (accepted.claims, &accepted.point) == (honest.claims, &honest.point)),
                Err(refusal) => drop(numbers.insert(refusal.number())),
            }
        }
    }
    let seen: Vec<_> = numbers.into_iter().collect();
    assert_eq!(seen, [6, 12, 13, 14, 15, 16, 17, 18, 19], "the damage reaches every number");
}

#[test]
fn damaged_challenges() {
    let mut source = Source(8);
    for n in 2..=6 {
        let (rows, challenges) = (source.zero_sum(n), source.challenges(n));
        let proof = prove(&rows, Mode::Live, Sum::AssertZero, &challenges).unwrap().proof;
        for _ in 0..200 {
            let mut other = challenges.clone();
            let at = source.below(other.len());
            other[at] = source.element();
            let told = compare(&proof, n, Mode::Live, &other);
            assert!(told.is_err() || at + 1 == other.len(), "only the last mu is checked by nothing that follows");
        }
    }
}

#[test]
fn bytes_that_are_no_proof() {
    let mut source = Source(9);
    for _ in 0..20_000 {
        let n = source.below(12);
        let challenges = source.challenges(n);
        let mut bytes: Vec<u8> = (0..source.below(300)).map(|_| source.next() as u8 & [0, 1, 3, 255][source.below(4)]).collect();
        if bytes.len() >= 5 && source.below(2) == 0 {
            let length = (bytes.len() - 5) as u32;
            bytes[0] = 1;
            bytes[1..5].copy_from_slice(&length.to_be_bytes());
        }
        let _ = compare(&bytes, n, Mode::Live, &challenges);
    }
}

#[test]
fn bytes_that_are_no_sheet() {
    let mut source = Source(10);
    for _ in 0..20_000 {
        let bytes: Vec<u8> = (0..source.below(140)).map(|_| source.next() as u8 & [0, 1, 3, 255][source.below(4)]).collect();
        if let Ok(rows) = read_sheet(&bytes) {
            assert_eq!(bytes.len(), 3 + 32 * rows.len());
        }
    }
}
