//! Stands in for honeycomb-core's `cmap/components/unused.rs`: a flag for each dart.

use std::ops::Index;

use crate::cmap::DartIdType;
use crate::stm::TVar;

/// Whether each dart is unused.
pub struct UnusedDarts(Vec<TVar<bool>>);

impl UnusedDarts {
    /// All used.
    pub fn new(n_darts: usize) -> Self {
        Self((0..n_darts).map(|_| TVar::new(false)).collect())
    }

    /// More darts, all used or all unused.
    pub fn extend_with(&mut self, n_darts: usize, unused: bool) {
        self.0.extend((0..n_darts).map(|_| TVar::new(unused)));
    }

    /// How many darts there are, the null dart counted.
    pub fn len(&self) -> usize {
        self.0.len()
    }

    /// The flags, dart 0's first.
    pub fn iter(&self) -> impl Iterator<Item = &TVar<bool>> {
        self.0.iter()
    }
}

impl Index<DartIdType> for UnusedDarts {
    type Output = TVar<bool>;
    fn index(&self, d: DartIdType) -> &TVar<bool> {
        &self.0[d as usize]
    }
}
