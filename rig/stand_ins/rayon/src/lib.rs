//! Stand-in for rayon: its iterators, run one item after another.
//!
//! The text names them only in `par_iter_vertices` and its like, which the comparison does not
//! call; they are here so that the file compiles as it stands.

pub mod prelude {
    /// An iterator that could have run in parallel.
    pub trait ParallelIterator: Iterator {}
    impl<I: Iterator> ParallelIterator for I {}

    /// What can become such an iterator.
    pub trait IntoParallelIterator {
        /// The items.
        type Item;
        /// The iterator.
        type Iter: ParallelIterator<Item = Self::Item>;
        /// Turns into it.
        fn into_par_iter(self) -> Self::Iter;
    }

    impl<I: IntoIterator> IntoParallelIterator for I {
        type Item = I::Item;
        type Iter = I::IntoIter;
        fn into_par_iter(self) -> I::IntoIter {
            self.into_iter()
        }
    }
}
