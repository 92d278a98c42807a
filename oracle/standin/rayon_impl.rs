//! Stands in for the thread pool: everything runs in order on the calling thread, so that
//! lent masks and noise are drawn in row order.

use super::{ParallelConfig, Railgun};

#[derive(Clone, Default)]
pub struct RayonRailgun;

impl RayonRailgun {
    pub fn with_config(_config: ParallelConfig) -> Self {
        RayonRailgun
    }
}

impl Railgun for RayonRailgun {
    fn par_map<T, U, F>(&self, input: &[T], f: F) -> Vec<U>
    where
        T: Sync,
        U: Send,
        F: Fn(&T) -> U + Sync + Send,
    {
        input.iter().map(f).collect()
    }

    fn par_map_indexed<T, U, F>(&self, input: &[T], f: F) -> Vec<U>
    where
        T: Sync,
        U: Send,
        F: Fn(usize, &T) -> U + Sync + Send,
    {
        input.iter().enumerate().map(|(i, x)| f(i, x)).collect()
    }

    fn with_config<F, R>(&self, _config: ParallelConfig, f: F) -> R
    where
        F: Fn() -> R + Send + Sync,
        R: Send,
    {
        f()
    }
}
