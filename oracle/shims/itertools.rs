//! Stands in for the crate `itertools`: of it the sorter only uses `collect_vec`, for its logs.

pub trait Itertools: Iterator + Sized {
    fn collect_vec(self) -> Vec<Self::Item> {
        self.collect()
    }
}

impl<I: Iterator> Itertools for I {}
