//! Names only: `ConTree` is not bought, and `fit` never reaches it.
use crate::common::{FitOutcome, PointSelector, SearchError, SearchStatus, Statistics};
use crate::data::Dataset;
use crate::tree::Tree;

pub struct ConTree {
    pub tree: Tree,
}

impl ConTree {
    #[allow(clippy::too_many_arguments)]
    pub fn new(_: usize, _: usize, _: f64, _: usize, _: PointSelector, _: usize, _: bool, _: bool) -> Self {
        unimplemented!()
    }
    pub fn fit(&mut self, _: &Dataset) -> Result<FitOutcome, SearchError> {
        unimplemented!()
    }
    pub fn statistics(&self) -> Statistics {
        unimplemented!()
    }
    pub fn status(&self) -> SearchStatus {
        unimplemented!()
    }
}
