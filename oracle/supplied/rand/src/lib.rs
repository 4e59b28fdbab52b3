//! Names only: `fit` tries the middle cut and never draws.
use std::ops::RangeInclusive;

pub mod rngs {
    pub struct StdRng;
}

pub trait Rng {
    fn random_range(&mut self, range: RangeInclusive<usize>) -> usize;
}

impl Rng for rngs::StdRng {
    fn random_range(&mut self, _: RangeInclusive<usize>) -> usize {
        unimplemented!()
    }
}
