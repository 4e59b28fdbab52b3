//! The reasons a search turns back, 1 to 9: "The lowest number wins, each check over the whole sheet."
use crate::sheet::*;

type Test = fn(&Sheet) -> Option<usize>;

/// The reason's number and place, if the call turns back. `scratch` is the length of the lent scratch in words.
pub fn turned_back(sheet: &Sheet, scratch: usize) -> Option<(u8, usize)> {
    if outside_limits(&sheet.numbers) {
        return Some((1, 0));
    }
    if wrong_length(sheet) {
        return Some((2, 0));
    }
    if scratch < SCRATCH_PER_ROW * sheet.numbers.rows {
        return Some((3, 0));
    }
    if above_its_limit(&sheet.numbers) {
        return Some((4, 0));
    }
    let tests: [(u8, Test); 5] = [(5, bad_value), (6, bad_code), (7, bad_order), (8, unsorted), (9, bad_cuts)];
    tests.iter().find_map(|(number, test)| test(sheet).map(|place| (*number, place)))
}

/// 1: rows, columns or labels outside limits
pub fn outside_limits(n: &Numbers) -> bool {
    let outside = |x: usize, most: usize| x < 1 || x > most;
    outside(n.rows, MOST_ROWS) || outside(n.columns, MOST_COLUMNS) || outside(n.labels, MOST_LABELS)
}

/// 2: an input slice of the wrong length
fn wrong_length(sheet: &Sheet) -> bool {
    let cells = sheet.numbers.rows * sheet.numbers.columns;
    [sheet.values.len(), sheet.order.len(), sheet.cuts.len()].iter().any(|&length| length != cells)
        || sheet.counts.len() != sheet.numbers.columns
        || sheet.codes.len() != sheet.numbers.rows
}

/// 4: support, gap, error or bound above its limit
pub fn above_its_limit(n: &Numbers) -> bool {
    n.support > MOST_SUPPORT || [n.gap, n.error, n.bound].iter().any(|&x| x > MOST_ERROR)
}

/// 5: value not finite or too large
pub fn bad_value(sheet: &Sheet) -> Option<usize> {
    first_bad_value(&sheet.values)
}

pub fn first_bad_value(values: &[f64]) -> Option<usize> {
    values.iter().position(|value| !value.is_finite() || value.abs() > LARGEST)
}

/// 6: label code too high
pub fn bad_code(sheet: &Sheet) -> Option<usize> {
    sheet.codes.iter().position(|&code| code as usize >= sheet.numbers.labels)
}

/// 7: order entry not below rows, or a row met before in its column
fn bad_order(sheet: &Sheet) -> Option<usize> {
    let rows = sheet.numbers.rows;
    (0..sheet.order.len()).find(|&index| {
        let column = index - index % rows;
        sheet.order[index] as usize >= rows || sheet.order[column..index].contains(&sheet.order[index])
    })
}

/// 8: sorted value below its predecessor
fn unsorted(sheet: &Sheet) -> Option<usize> {
    let rows = sheet.numbers.rows;
    (0..sheet.order.len()).find(|&index| {
        let (column, place) = (index / rows, index % rows);
        place >= 1 && sheet.value_at(column, place) < sheet.value_at(column, place - 1)
    })
}

/// 9: count or cuts not exactly the value changes
fn bad_cuts(sheet: &Sheet) -> Option<usize> {
    let rows = sheet.numbers.rows;
    (0..sheet.numbers.columns).find(|&column| {
        let changes: Vec<u16> = changes(sheet, column).iter().map(|&place| place as u16).collect();
        let count = sheet.counts[column] as usize;
        count != changes.len() || sheet.cuts[column * rows..column * rows + count] != changes[..]
    })
}

/// "A cut is a place i ≥ 1 whose value is above that at i−1."
pub fn changes(sheet: &Sheet, column: usize) -> Vec<usize> {
    (1..sheet.numbers.rows).filter(|&place| sheet.value_at(column, place) > sheet.value_at(column, place - 1)).collect()
}
