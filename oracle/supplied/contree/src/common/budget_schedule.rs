//! Names only: the anytime search is not bought, and `fit` never reaches these.
pub struct Budget;
pub struct BudgetSchedule;
pub struct PassReport;
pub struct ScheduleBounds;
pub struct ScheduleKind;
