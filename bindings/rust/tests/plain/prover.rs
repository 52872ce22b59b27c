//! The proving run over vectors, with no refusals.
use super::field::{add, line, mul, plus, sum, weight};
use accudrina::{Element, Fraction};

/// The log and the challenges left.
pub struct Transcript<'a> {
    pub log: Vec<u32>,
    pub left: &'a [Element],
}

impl Transcript<'_> {
    pub fn observe(&mut self, e: Element) {
        self.log.extend(e.0);
    }

    pub fn sample(&mut self) -> Element {
        let e = self.left[0];
        self.left = &self.left[1..];
        self.log.extend(e.0.map(|w| w | 1 << 31));
        e
    }
}

/// A proof before it is bytes.
#[derive(Clone, Debug, PartialEq)]
pub struct Proof {
    pub q0: Element,
    pub layers: Vec<[Element; 4]>,
    pub polys: Vec<Vec<[Element; 3]>>,
}

impl Proof {
    pub fn bytes(&self) -> Vec<u8> {
        let be = |e: &Element| e.0.map(u32::to_be_bytes).concat();
        let mut body = be(&self.q0);
        body.push(self.layers.len() as u8);
        body.extend(self.layers.iter().flatten().flat_map(be));
        body.push(self.polys.len() as u8);
        for entry in &self.polys {
            body.push(entry.len() as u8);
            body.extend(entry.iter().flatten().flat_map(be));
        }
        [vec![1], (body.len() as u32).to_be_bytes().to_vec(), body].concat()
    }
}

/// The levels of the tree, the root first.
fn levels(rows: &[Fraction]) -> Vec<Vec<Fraction>> {
    let mut levels = vec![rows.to_vec()];
    while levels[0].len() > 1 {
        let above = levels[0].chunks(2).map(|pair| plus(pair[0], pair[1])).collect();
        levels.insert(0, above);
    }
    levels
}

/// The columns eq, p0, q0, p1, q1 of a layer.
type Columns = [Vec<Element>; 5];

fn at(columns: &Columns, y: usize, x: Element) -> [Element; 5] {
    std::array::from_fn(|c| line(columns[c][2 * y], columns[c][2 * y + 1], x))
}

/// s(x): the sum over the remaining cube.
fn round_sum(columns: &Columns, lambda: Element, x: Element) -> Element {
    let term = |y| {
        let [eq, p0, q0, p1, q1] = at(columns, y, x);
        mul(eq, add(add(mul(p0, q1), mul(p1, q0)), mul(lambda, mul(q0, q1))))
    };
    sum((0..columns[0].len() / 2).map(term))
}

/// One layer: its polynomials, and the point with the last four values in its log.
fn layer(t: &mut Transcript<'_>, level: &[Fraction], point: &mut Vec<Element>) -> ([Element; 4], Vec<[Element; 3]>) {
    let lambda = t.sample();
    let column = |from: usize, f: fn(&Fraction) -> Element| level.iter().skip(from).step_by(2).map(f).collect();
    let eq = (0..level.len() / 2).map(|y| weight(point, y)).collect();
    let mut columns: Columns = [eq, column(0, |r| r.p), column(0, |r| r.q), column(1, |r| r.p), column(1, |r| r.q)];
    let (mut polys, mut rhos) = (vec![], vec![]);
    while columns[0].len() > 1 {
        let s = [1, 2, 3].map(|x| round_sum(&columns, lambda, Element::new(x)));
        s.iter().for_each(|&e| t.observe(e));
        polys.push(s);
        let rho = t.sample();
        rhos.push(rho);
        columns = columns.map(|c| c.chunks(2).map(|pair| line(pair[0], pair[1], rho)).collect());
    }
    let claims: [Element; 4] = std::array::from_fn(|c| columns[c + 1][0]);
    claims.iter().for_each(|&e| t.observe(e));
    *point = [vec![t.sample()], rhos].concat();
    (claims, polys)
}

/// The proof, the point and the log of 2 or more rows.
pub fn prove(rows: &[Fraction], assert_zero: bool, challenges: &[Element]) -> (Proof, Vec<Element>, Vec<u32>) {
    let levels = levels(rows);
    let mut t = Transcript { log: vec![], left: challenges };
    let root = levels[0][0];
    if !assert_zero {
        t.observe(root.p);
    }
    t.observe(root.q);
    let first = [levels[1][0].p, levels[1][0].q, levels[1][1].p, levels[1][1].q];
    first.iter().for_each(|&e| t.observe(e));
    let mut point = vec![t.sample()];
    let mut proof = Proof { q0: root.q, layers: vec![first], polys: vec![] };
    for level in &levels[2..] {
        let (claims, polys) = layer(&mut t, level, &mut point);
        proof.layers.push(claims);
        proof.polys.push(polys);
    }
    (proof, point, t.log)
}
