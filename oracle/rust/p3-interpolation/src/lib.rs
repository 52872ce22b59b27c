//! Ours: the name of p3_interpolation that the Rust's files use, by its definition. No command of the oracle runs it.
use p3_field::{ExtensionField, TwoAdicField};
use p3_matrix::{dense::RowMajorMatrix, Matrix};
/// sum_i v_i * x_i/(N shift^{N-1}...) form: with diff_invs = 1/(point - x_i).
pub fn interpolate_coset_with_precomputation<F, EF>(
    m: &RowMajorMatrix<F>,
    shift: F,
    point: EF,
    coset: &[F],
    diff_invs: &[EF],
) -> Vec<EF>
where
    F: TwoAdicField,
    EF: ExtensionField<F>,
{
    let (h, w) = (m.height(), m.width());
    let k = h.trailing_zeros() as usize;
    // (X^N - s^N) / (N s^N) * sum v_i x_i / (X - x_i)
    let sn = shift.exp_power_of_2(k);
    let z = point.exp_power_of_2(k) - EF::from(sn);
    let scale = (sn * F::from_usize(h)).inverse();
    (0..w)
        .map(|j| {
            let mut acc = EF::ZERO;
            for i in 0..h {
                acc += diff_invs[i] * (coset[i] * m.values[i * w + j]);
            }
            acc * z * scale
        })
        .collect()
}
