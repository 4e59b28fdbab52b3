//! The original's `fit` on a sheet. Unique value ids are given by equality of values, where the original's own preparation merges values closer
//! than `f64::EPSILON`; `Ids::Merged` asks for that preparation.
use crate::answer::{Answer, Side, Tree};
use crate::sheet::Sheet;
use crate::speed::seconds;
use contree::algorithms::depth2::ConTreeDepth2;
use contree::caching::Entry;
use contree::common::{PointSelector, SearchConfig, Statistics};
use contree::data::view::DataView;
use contree::data::{DataPoint, Dataset};
use std::panic::{catch_unwind, AssertUnwindSafe};

#[derive(Clone, Copy, PartialEq, Eq)]
pub enum Ids {
    ByEquality,
    Merged,
}

/// The sheet's points in row order, not yet prepared.
fn points(sheet: &Sheet) -> Dataset {
    let mut dataset = Dataset::new();
    for column in 0..sheet.numbers.columns {
        for row in 0..sheet.numbers.rows {
            dataset.insert(DataPoint::new(row, sheet.value(column, row), sheet.code(row) as f64), column);
        }
    }
    dataset.set_num_label(sheet.numbers.labels);
    dataset
}

/// The original's dataset of an accepted sheet.
pub fn dataset(sheet: &Sheet, ids: Ids) -> Dataset {
    let mut dataset = points(sheet);
    match ids {
        Ids::ByEquality => lay_out(sheet, &mut dataset),
        Ids::Merged => index(&mut dataset),
    }
    dataset
}

/// Every column sorted and its values indexed, as the original does it.
fn index(dataset: &mut Dataset) {
    dataset.sort_features();
    dataset.compute_unique_feature_values();
}

/// Every column in the sheet's own order, with an id that rises where the value does.
fn lay_out(sheet: &Sheet, dataset: &mut Dataset) {
    for column in 0..sheet.numbers.columns {
        let mut id = 0;
        for place in 0..sheet.numbers.rows {
            let row = sheet.row_at(column, place);
            let value = sheet.value(column, row);
            if place > 0 && value != sheet.value_at(column, place - 1) {
                id += 1;
            }
            let mut point = DataPoint::new(row, value, sheet.code(row) as f64);
            point.set_unique_value_id(id);
            dataset[column][place] = point;
        }
    }
}

/// `fit` on a prepared view.
pub fn fit(sheet: &Sheet, view: &DataView<'_>) -> Answer {
    let n = sheet.numbers;
    let config = SearchConfig::new(n.support, 2, f64::MAX, n.gap, n.error, false, true, PointSelector::Mid);
    let mut entry = Entry { error: n.error, feature: usize::MAX, split: f64::INFINITY, label: 0, is_leaf: false, tree_idx: None };
    let mut statistics = Statistics::default();
    let tree = ConTreeDepth2.fit(view, &config, &mut entry, n.bound, &mut statistics);
    let tried = statistics.specialized_solver_call;
    if entry.error == n.error {
        return Answer::Kept { error: entry.error, tried };
    }
    Answer::Found { error: entry.error, tree: found(&tree), tried }
}

/// `fit` on a sheet; None if the original panics.
pub fn search(sheet: &Sheet, ids: Ids) -> Option<Answer> {
    catch_unwind(AssertUnwindSafe(|| {
        let dataset = dataset(sheet, ids);
        fit(sheet, &DataView::root(&dataset, false))
    }))
    .ok()
}

fn found(tree: &contree::tree::Tree) -> Tree {
    let (left, right) = tree.node_children(tree.get_root_index());
    Tree {
        column: tree.root_feature().expect("a found root has a column"),
        threshold: tree.root_split().expect("a found root has a threshold").to_bits(),
        sides: [side(tree, left), side(tree, right)],
    }
}

fn side(tree: &contree::tree::Tree, node: usize) -> Side {
    let label = |node: usize| tree.node_label(node).expect("a leaf has a label");
    let Some(column) = tree.node_feature(node) else {
        return Side::Leaf { label: label(node), error: tree.node_error(node) };
    };
    let (left, right) = tree.node_children(node);
    Side::Split {
        column,
        threshold: tree.node_split(node).expect("a split has a threshold").to_bits(),
        labels: [label(left), label(right)],
        errors: [tree.node_error(left), tree.node_error(right)],
    }
}

/// The original's own preparation: columns sorted, values indexed, cuts found.
fn prepared(dataset: &mut Dataset) -> DataView<'_> {
    index(dataset);
    DataView::root(dataset, false)
}

/// Seconds of the original's own preparation. Its points are laid out before the clock starts.
pub fn prepare_seconds(sheet: &Sheet) -> f64 {
    let mut dataset = points(sheet);
    seconds(|| prepared(&mut dataset))
}

/// Seconds of the original's own preparation and of `fit` on what it prepared. Its points are laid out before the clock starts.
pub fn whole_seconds(sheet: &Sheet) -> f64 {
    let mut dataset = points(sheet);
    seconds(|| fit(sheet, &prepared(&mut dataset)))
}
