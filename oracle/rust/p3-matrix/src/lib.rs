//! Ours: the names of p3_matrix that the Rust's files use.
pub trait Matrix<T> {
    fn width(&self) -> usize;
    fn height(&self) -> usize;
}
pub mod dense {
    #[derive(Clone, Debug)]
    pub struct RowMajorMatrix<T> {
        pub values: Vec<T>,
        pub width: usize,
    }
    impl<T> RowMajorMatrix<T> {
        pub fn new(values: Vec<T>, width: usize) -> Self {
            assert!(width == 0 || values.len() % width == 0);
            Self { values, width }
        }
        pub fn new_col(values: Vec<T>) -> Self {
            Self { values, width: 1 }
        }
        pub fn rows_mut(&mut self) -> core::slice::ChunksExactMut<'_, T> {
            self.values.chunks_exact_mut(self.width)
        }
        pub fn row_slices(&self) -> core::slice::ChunksExact<'_, T> {
            self.values.chunks_exact(self.width)
        }
    }
    impl<T> super::Matrix<T> for RowMajorMatrix<T> {
        fn width(&self) -> usize {
            self.width
        }
        fn height(&self) -> usize {
            if self.width == 0 {
                0
            } else {
                self.values.len() / self.width
            }
        }
    }
}
