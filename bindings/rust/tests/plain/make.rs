//! Random words, sheets whose sum is zero, challenges.
use super::field::{root, sub};
use accudrina::{rooms, Element, Fraction, PRIME};

/// A small generator of numbers, from a seed.
pub struct Source(pub u64);

impl Source {
    pub fn next(&mut self) -> u64 {
        self.0 = self.0.wrapping_add(0x9e37_79b9_7f4a_7c15);
        let z = (self.0 ^ self.0 >> 30).wrapping_mul(0xbf58_476d_1ce4_e5b9);
        let z = (z ^ z >> 27).wrapping_mul(0x94d0_49bb_1331_11eb);
        z ^ z >> 31
    }

    pub fn below(&mut self, n: usize) -> usize {
        (self.next() % n as u64) as usize
    }

    pub fn element(&mut self) -> Element {
        Element(std::array::from_fn(|_| (self.next() % u64::from(PRIME)) as u32))
    }

    pub fn challenges(&mut self, rounds: usize) -> Vec<Element> {
        (0..rooms::challenge_words(rounds) / 4).map(|_| self.element()).collect()
    }

    /// Rows of any sum, no q zero in its first word.
    pub fn rows(&mut self, rounds: usize) -> Vec<Fraction> {
        let row = |s: &mut Self| {
            let mut q = s.element();
            q.0[0] = 1 + q.0[0] % (PRIME - 1);
            Fraction::new(s.element(), q)
        };
        (0..1 << rounds).map(|_| row(self)).collect()
    }

    /// Rows whose sum has p zero: each of the second half is the negative of one of the first.
    pub fn zero_sum(&mut self, rounds: usize) -> Vec<Fraction> {
        let half = self.rows(rounds - 1);
        let mut rows: Vec<_> = half.iter().map(|r| Fraction::new(sub(Element::ZERO, r.p), r.q)).collect();
        for r in half {
            let at = self.below(rows.len() + 1);
            rows.insert(at, r);
        }
        assert_eq!(root(&rows).p, Element::ZERO);
        rows
    }
}

pub fn row(p: u32, q: u32) -> Fraction {
    Fraction::new(Element::new(p), Element::new(q))
}

/// Rows in pairs p/q and -p/q, which sum to zero.
pub fn zero_sum(rounds: usize) -> Vec<Fraction> {
    (0..1 << (rounds - 1)).flat_map(|i| [row(i + 1, i + 2), row(PRIME - i - 1, i + 2)]).collect()
}

/// The challenges 1, 2, 3, .., as many as ten rounds take.
pub fn counted() -> Vec<Element> {
    (1..=64).map(Element::new).collect()
}
