//! The least error of any tree whose root sides and split leaves have the support, by trying them all: it shows what a search gave up.
use super::{goes_left, threshold_between};
use crate::sheet::{Sheet, MOST_LABELS};

/// Every threshold of a column: between neighbouring places whose values differ.
fn thresholds(sheet: &Sheet, column: usize) -> Vec<f64> {
    sheet.places(column).iter().map(|&place| threshold_between(sheet.value_at(column, place - 1), sheet.value_at(column, place))).collect()
}

/// Mistakes of one label for all the rows.
fn leaf(sheet: &Sheet, rows: &[usize]) -> usize {
    let mut counts = [0; MOST_LABELS];
    rows.iter().for_each(|&row| counts[sheet.code(row)] += 1);
    rows.len() - counts.iter().max().expect("some label")
}

/// The rows on each side of a question, if both sides have the support.
fn parted(sheet: &Sheet, rows: &[usize], column: usize, threshold: f64) -> Option<[Vec<usize>; 2]> {
    let (left, right): (Vec<usize>, Vec<usize>) = rows.iter().partition(|&&row| goes_left(sheet.value(column, row), threshold));
    let support = sheet.numbers.support.max(1);
    (left.len() >= support && right.len() >= support).then_some([left, right])
}

/// The least of `error` over every question that parts the rows.
fn least_parted(sheet: &Sheet, rows: &[usize], error: &dyn Fn(&[usize]) -> usize) -> Option<usize> {
    let questions = (0..sheet.numbers.columns).flat_map(|column| thresholds(sheet, column).into_iter().map(move |at| (column, at)));
    questions.filter_map(|(column, at)| parted(sheet, rows, column, at)).map(|[left, right]| error(&left) + error(&right)).min()
}

/// A side: a leaf, or the best split of it.
fn side(sheet: &Sheet, rows: &[usize]) -> usize {
    let split = least_parted(sheet, rows, &|part| leaf(sheet, part));
    split.map_or(leaf(sheet, rows), |split| split.min(leaf(sheet, rows)))
}

/// None where no root question leaves both sides the support.
pub fn error(sheet: &Sheet) -> Option<usize> {
    let rows: Vec<usize> = (0..sheet.numbers.rows).collect();
    least_parted(sheet, &rows, &|part| side(sheet, part))
}
