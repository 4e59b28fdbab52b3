//! Names only: how a whole search ended. `fit` never reaches these.
pub struct FitOutcome;
pub struct SearchStatus;

pub enum SearchError {
    EmptyDataset,
    NoFeatures,
    UnpreparedDataset,
    InvalidParameter { name: &'static str, reason: String },
}
