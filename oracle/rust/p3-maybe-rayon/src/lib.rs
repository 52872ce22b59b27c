//! Ours: rayon with feature `parallel`, otherwise plain iterators of the same names.
#[cfg(feature = "parallel")]
pub mod prelude {
    pub use rayon::prelude::*;
}
#[cfg(not(feature = "parallel"))]
pub mod prelude {
    use core::slice::{ChunksExact, ChunksExactMut, Iter, IterMut};
    pub trait IntoParallelIterator: IntoIterator + Sized {
        fn into_par_iter(self) -> Self::IntoIter {
            self.into_iter()
        }
    }
    impl<T: IntoIterator> IntoParallelIterator for T {}
    pub trait ParallelIterator: Iterator + Sized {
        fn find_any<P: FnMut(&Self::Item) -> bool>(mut self, p: P) -> Option<Self::Item> {
            self.find(p)
        }
    }
    impl<T: Iterator> ParallelIterator for T {}
    pub trait ParallelSlice<T> {
        fn par_iter(&self) -> Iter<'_, T>;
        fn par_iter_mut(&mut self) -> IterMut<'_, T>;
        fn par_chunks_exact(&self, n: usize) -> ChunksExact<'_, T>;
        fn par_chunks_exact_mut(&mut self, n: usize) -> ChunksExactMut<'_, T>;
    }
    impl<T> ParallelSlice<T> for [T] {
        fn par_iter(&self) -> Iter<'_, T> {
            self.iter()
        }
        fn par_iter_mut(&mut self) -> IterMut<'_, T> {
            self.iter_mut()
        }
        fn par_chunks_exact(&self, n: usize) -> ChunksExact<'_, T> {
            self.chunks_exact(n)
        }
        fn par_chunks_exact_mut(&mut self, n: usize) -> ChunksExactMut<'_, T> {
            self.chunks_exact_mut(n)
        }
    }
}
