//! Elements and fractions as words.

/// The base prime. A word is canonical when it is below it.
pub const PRIME: u32 = 2_013_265_921;

/// c0 + c1·x + c2·x² + c3·x³ with x⁴ = 11.
#[derive(Clone, Copy, Debug, Default, PartialEq, Eq, Hash)]
pub struct Element(pub [u32; 4]);

impl Element {
    pub const ZERO: Self = Self([0; 4]);
    pub const ONE: Self = Self([1, 0, 0, 0]);

    /// The element of one word of the base.
    pub const fn new(word: u32) -> Self {
        Self([word, 0, 0, 0])
    }
}

/// p over q, not reduced. Nothing keeps q from zero.
#[derive(Clone, Copy, Debug, Default, PartialEq, Eq, Hash)]
pub struct Fraction {
    pub p: Element,
    pub q: Element,
}

impl Fraction {
    pub const fn new(p: Element, q: Element) -> Self {
        Self { p, q }
    }
}

/// The words of elements, four each.
pub fn words_of(elements: &[Element]) -> Vec<u32> {
    elements.iter().flat_map(|e| e.0).collect()
}

/// The words of rows, eight each: p, then q.
pub fn row_words(rows: &[Fraction]) -> Vec<u32> {
    rows.iter().flat_map(|r| [r.p.0, r.q.0]).flatten().collect()
}

/// The elements of words; up to three words past the last whole element are left out.
pub fn elements_of(words: &[u32]) -> Vec<Element> {
    words.chunks_exact(4).map(|w| Element([w[0], w[1], w[2], w[3]])).collect()
}
