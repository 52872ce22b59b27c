//! Arithmetic of the extension, word by word, and the value of a column at a point.
use accudrina::{Element, Fraction, PRIME};

const P: u64 = PRIME as u64;

pub fn add(a: Element, b: Element) -> Element {
    Element(std::array::from_fn(|i| ((a.0[i] as u64 + b.0[i] as u64) % P) as u32))
}

pub fn sub(a: Element, b: Element) -> Element {
    Element(std::array::from_fn(|i| ((a.0[i] as u64 + P - b.0[i] as u64) % P) as u32))
}

pub fn mul(a: Element, b: Element) -> Element {
    let mut c = [0u64; 4];
    for i in 0..4 {
        for j in 0..4 {
            let term = a.0[i] as u64 * b.0[j] as u64 % P;
            let term = if i + j < 4 { term } else { 11 * term % P };
            c[(i + j) % 4] = (c[(i + j) % 4] + term) % P;
        }
    }
    Element(c.map(|w| w as u32))
}

pub fn sum(parts: impl IntoIterator<Item = Element>) -> Element {
    parts.into_iter().fold(Element::ZERO, add)
}

/// To a power, by squaring.
pub fn power(a: Element, mut k: u64) -> Element {
    let (mut base, mut out) = (a, Element::ONE);
    while k > 0 {
        if k & 1 == 1 {
            out = mul(out, base);
        }
        base = mul(base, base);
        k >>= 1;
    }
    out
}

/// The inverse of a word of the base.
pub fn inverse(word: u32) -> Element {
    power(Element::new(word), P - 2)
}

/// t0 + x·(t1 − t0).
pub fn line(t0: Element, t1: Element, x: Element) -> Element {
    add(t0, mul(x, sub(t1, t0)))
}

/// Through the values at 0, 1, 2, .., by Lagrange.
pub fn interpolate(values: &[Element], x: Element) -> Element {
    let node = |i: usize| Element::new(i as u32);
    let term = |i: usize| {
        (0..values.len()).filter(|&j| j != i).fold(values[i], |t, j| {
            let distance = sub(node(i), node(j));
            mul(t, mul(sub(x, node(j)), inverse(distance.0[0])))
        })
    };
    sum((0..values.len()).map(term))
}

/// The weight of index i at a point: z_k where bit k of i is 1, 1 − z_k where it is 0.
pub fn weight(point: &[Element], i: usize) -> Element {
    point.iter().enumerate().fold(Element::ONE, |w, (k, &z)| mul(w, if i >> k & 1 == 1 { z } else { sub(Element::ONE, z) }))
}

/// The value of a column at a point: the sum over all rows.
pub fn value(column: &[Element], point: &[Element]) -> Element {
    sum(column.iter().enumerate().map(|(i, &t)| mul(t, weight(point, i))))
}

/// (p, q) + (p', q') = (p·q' + q·p', q·q').
pub fn plus(a: Fraction, b: Fraction) -> Fraction {
    Fraction::new(add(mul(a.p, b.q), mul(a.q, b.p)), mul(a.q, b.q))
}

/// The sum of rows, in the order of the tree.
pub fn root(rows: &[Fraction]) -> Fraction {
    match rows {
        [] => Fraction::new(Element::ZERO, Element::ONE),
        [one] => *one,
        _ => {
            let (left, right) = rows.split_at(rows.len() / 2);
            plus(root(left), root(right))
        }
    }
}
