//! Ours: the column-major matrix that prover/sumcheck.rs and prover/poly.rs work on.
pub mod error;
pub mod logup_zerocheck;
#[path = "../../copied/prover/poly.rs"]
pub mod poly;
#[path = "../../copied/prover/sumcheck.rs"]
pub mod sumcheck;

pub trait MatrixDimensions {
    fn height(&self) -> usize;
    fn width(&self) -> usize;
}
pub trait MatrixView<F> {
    /// # Safety: row < height, col < width
    unsafe fn get_unchecked(&self, row: usize, col: usize) -> &F;
}
#[derive(Clone, Debug, PartialEq, Eq)]
pub struct ColMajorMatrix<F> {
    pub values: Vec<F>,
    width: usize,
    height: usize,
}
#[derive(Clone, Copy, Debug)]
pub struct ColMajorMatrixView<'a, F> {
    pub values: &'a [F],
    width: usize,
    height: usize,
}
#[derive(Clone, Copy, Debug)]
pub struct StridedColMajorMatrixView<'a, F> {
    values: &'a [F],
    width: usize,
    height: usize,
}
macro_rules! dims {
    ($t:ty) => {
        impl<F> MatrixDimensions for $t {
            fn height(&self) -> usize {
                self.height
            }
            fn width(&self) -> usize {
                self.width
            }
        }
    };
}
dims!(ColMajorMatrix<F>);
dims!(ColMajorMatrixView<'_, F>);
dims!(StridedColMajorMatrixView<'_, F>);
impl<F> ColMajorMatrix<F> {
    pub fn new(values: Vec<F>, width: usize) -> Self {
        assert_eq!(values.len() % width, 0);
        let height = values.len() / width;
        Self {
            values,
            width,
            height,
        }
    }
    pub fn as_view(&self) -> ColMajorMatrixView<'_, F> {
        ColMajorMatrixView {
            values: &self.values,
            width: self.width,
            height: self.height,
        }
    }
    pub fn column(&self, j: usize) -> &[F] {
        &self.values[j * self.height..(j + 1) * self.height]
    }
}
impl<'a, F> ColMajorMatrixView<'a, F> {
    pub fn column(&self, j: usize) -> &'a [F] {
        &self.values[j * self.height..(j + 1) * self.height]
    }
    pub fn columns(&self) -> core::slice::ChunksExact<'a, F> {
        self.values.chunks_exact(self.height)
    }
}
impl<'a, F> From<ColMajorMatrixView<'a, F>> for StridedColMajorMatrixView<'a, F> {
    fn from(v: ColMajorMatrixView<'a, F>) -> Self {
        Self {
            values: v.values,
            width: v.width,
            height: v.height,
        }
    }
}
impl<F> MatrixView<F> for StridedColMajorMatrixView<'_, F> {
    unsafe fn get_unchecked(&self, row: usize, col: usize) -> &F {
        self.values.get_unchecked(col * self.height + row)
    }
}
