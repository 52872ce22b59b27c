//! The unchanged Rust's calls. Inputs are made, and buffers allocated where the call takes them, before the clock starts.
use crate::{drawn::Carried, ours::Layer, stored, timed, transcript::{Scripted, SC}};
use p3_field::{BabyBear, Ext};
use stark_backend::{
    proof::GkrProof,
    prover::{
        logup_zerocheck::fractional_sumcheck_gkr::{fractional_sumcheck, Frac},
        sumcheck::{fold_mle_evals, sumcheck_round_poly_evals},
        ColMajorMatrix,
    },
    verifier::fractional_sumcheck_gkr::verify_gkr,
    FiatShamirTranscript,
};

pub fn ext(w: &[u32]) -> Ext {
    Ext([w[0], w[1], w[2], w[3]].map(BabyBear::new))
}

fn flat(elements: &[Ext]) -> Vec<u32> {
    elements.iter().flat_map(|e| e.words()).collect()
}

pub fn fractions(rows: &[u32]) -> Vec<Frac<Ext>> {
    rows.chunks(8).map(|r| Frac::new(ext(&r[..4]), ext(&r[4..]))).collect()
}

fn scripted(challenges: &[u32]) -> Scripted {
    let mut ts = Scripted::new(challenges.iter().map(|&w| BabyBear::new(w)).collect());
    ts.log.reserve(1000);
    ts
}

fn carried() -> Carried {
    let mut ts = Carried::new();
    ts.log.reserve(1000);
    ts
}

fn run_prover(rows: &[Frac<Ext>], ts: &mut impl FiatShamirTranscript<SC>) -> (f64, Vec<u8>, Vec<u32>) {
    let (t, answer) = timed(|| fractional_sumcheck::<SC, _>(ts, rows, true));
    let (proof, point) = answer.ok().expect("proved");
    (t, stored::store(1, proof.fractional_sum.1, &proof.claims_per_layer, &proof.sumcheck_polys), flat(&point))
}

fn run_verifier(proof: &GkrProof<SC>, n: usize, ts: &mut impl FiatShamirTranscript<SC>) -> (f64, Vec<u32>) {
    let (t, answer) = timed(|| verify_gkr::<SC, _>(proof, ts, n));
    let (_, _, point) = answer.ok().expect("accepted");
    (t, flat(&point))
}

/// Proof as stored, point and log; the challenges given or drawn.
pub fn prove(rows: &[Frac<Ext>], challenges: Option<&[u32]>) -> (f64, (Vec<u8>, Vec<u32>, Vec<u32>)) {
    let ((t, proof, point), log) = match challenges {
        Some(given) => {
            let mut ts = scripted(given);
            (run_prover(rows, &mut ts), ts.log)
        }
        None => {
            let mut ts = carried();
            (run_prover(rows, &mut ts), ts.log)
        }
    };
    (t, (proof, point, log))
}

/// Point and log. The proof is parsed already.
pub fn verify(proof: &GkrProof<SC>, n: usize, challenges: Option<&[u32]>) -> (f64, (Vec<u32>, Vec<u32>)) {
    let ((t, point), log) = match challenges {
        Some(given) => {
            let mut ts = scripted(given);
            (run_verifier(proof, n, &mut ts), ts.log)
        }
        None => {
            let mut ts = carried();
            (run_verifier(proof, n, &mut ts), ts.log)
        }
    };
    (t, (point, log))
}

/// The first `n` entries of p0, q0, p1, q1, one column after another.
pub fn columns(l: &Layer, n: usize) -> Vec<u32> {
    let cell = |i: usize| l.work[4 * i..4 * i + 4].to_vec();
    (0..4).flat_map(|j| (0..n).map(move |y| 2 * l.pq + 4 * y + j)).flat_map(cell).collect()
}

/// eq as a column over this sub-round's variable too, and the four columns of claims.
fn matrices(l: &Layer) -> (ColMajorMatrix<Ext>, ColMajorMatrix<Ext>) {
    let (c, x) = (ext(&l.begun[..4]), ext(&l.begun[4..]));
    let weight = |y: usize| ext(&l.work[4 * (l.at + y)..4 * (l.at + y) + 4]);
    let eq = (0..l.half).flat_map(|y| [(c - c * x) * weight(y), c * x * weight(y)]).collect();
    let pq = columns(l, 2 * l.half).chunks(4).map(ext).collect();
    (ColMajorMatrix::new(eq, 1), ColMajorMatrix::new(pq, 4))
}

pub fn round_sums(l: &Layer, lambda: &[u32]) -> (f64, [u32; 12]) {
    let (lambda, (eq, pq)) = (ext(lambda), matrices(l));
    let variables = (2 * l.half).trailing_zeros() as usize;
    let (t, [s]) = timed(|| {
        sumcheck_round_poly_evals(variables, 3, &[eq.as_view(), pq.as_view()], |_, _, row| {
            let (eq, &[p0, q0, p1, q1]) = (row[0][0], row[1].as_slice()) else { unreachable!() };
            [eq * (p0 * q1 + p1 * q0 + lambda * (q0 * q1))]
        })
    });
    (t, flat(&s).try_into().expect("three elements"))
}

pub fn fold(l: &Layer, rho: &[u32]) -> (f64, Vec<u32>) {
    let (rho, (_, pq)) = (ext(rho), matrices(l));
    let (t, pq) = timed(|| fold_mle_evals(pq, rho));
    (t, (0..4).flat_map(|j| flat(pq.column(j))).collect())
}

pub fn chain(mut x: Ext, y: Ext, n: usize) -> u32 {
    for _ in 0..n {
        x *= y;
    }
    x.words()[0]
}

pub fn chains(mut x: [Ext; 4], y: Ext, n: usize) -> u32 {
    for _ in 0..n {
        x = x.map(|x| x * y);
    }
    (x[0] + x[1] + (x[2] + x[3])).words()[0]
}
