//! Names only: `ConTreeLds` is not bought, and `fit` never reaches it.
use crate::common::{FitOutcome, PointSelector, ScheduleKind, SearchError, SearchStatus, Statistics};
use crate::data::view::DataView;
use crate::data::Dataset;
use crate::tree::Tree;

pub struct ConTreeLds;

impl ConTreeLds {
    #[allow(clippy::too_many_arguments)]
    pub fn new(_: usize, _: usize, _: f64, _: usize, _: PointSelector, _: usize, _: bool, _: bool) -> Self {
        unimplemented!()
    }
    pub fn with_schedule(self, _: ScheduleKind) -> Self {
        unimplemented!()
    }
    pub fn fit(&mut self, _: &Dataset) -> Result<FitOutcome, SearchError> {
        unimplemented!()
    }
    pub fn partial_fit(&mut self, _: &DataView<'_>) -> bool {
        unimplemented!()
    }
    pub fn statistics(&self) -> &Statistics {
        unimplemented!()
    }
    pub fn status(&self) -> SearchStatus {
        unimplemented!()
    }
    pub fn get_solution_tree(&mut self) -> Tree {
        unimplemented!()
    }
}
