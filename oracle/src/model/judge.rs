//! A tree run over a sheet's rows: its mistakes. It shows where a listed error is not the tree's own.
use super::goes_left;
use crate::answer::{Side, Tree};
use crate::sheet::Sheet;

/// The label that the tree gives a row.
fn label_of(sheet: &Sheet, tree: &Tree, row: usize) -> usize {
    let left = |column: usize, threshold: u64| goes_left(sheet.value(column, row), f64::from_bits(threshold));
    match tree.sides[usize::from(!left(tree.column, tree.threshold))] {
        Side::Leaf { label, .. } => label,
        Side::Split { column, threshold, labels, .. } => labels[usize::from(!left(column, threshold))],
    }
}

pub fn mistakes(sheet: &Sheet, tree: &Tree) -> usize {
    (0..sheet.numbers.rows).filter(|&row| label_of(sheet, tree, row) != sheet.code(row)).count()
}
