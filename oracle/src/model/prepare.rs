//! The preparer: "takes values only; ties go by row number and unused cut places become 0."
use super::check;
use crate::sheet::{Numbers, Sheet, MOST_COLUMNS, MOST_ROWS};

/// The reason's number and place, if the preparer turns back. `lent` is the lengths of order, cuts and counts.
pub fn turned_back(n: &Numbers, values: &[f64], lent: [usize; 3]) -> Option<(u8, usize)> {
    let outside = |x: usize, most: usize| x < 1 || x > most;
    if outside(n.rows, MOST_ROWS) || outside(n.columns, MOST_COLUMNS) {
        return Some((1, 0));
    }
    let cells = n.rows * n.columns;
    if values.len() != cells {
        return Some((2, 0));
    }
    if lent != [cells, cells, n.columns] {
        return Some((3, 0));
    }
    check::first_bad_value(values).map(|place| (5, place))
}

/// Fills the sheet's order, cuts and counts from its values, which are all in range.
pub fn prepare(sheet: &mut Sheet) {
    let Numbers { rows, columns, .. } = sheet.numbers;
    sheet.order.clear();
    for column in 0..columns {
        let mut sorted: Vec<u16> = (0..rows as u16).collect();
        let value = |row: u16| sheet.value(column, row as usize);
        sorted.sort_by(|&a, &b| value(a).partial_cmp(&value(b)).expect("finite").then(a.cmp(&b)));
        sheet.order.extend(sorted);
    }
    list_cuts(sheet);
}

/// The cuts and counts of the sheet's order.
pub fn list_cuts(sheet: &mut Sheet) {
    let Numbers { rows, columns, .. } = sheet.numbers;
    sheet.cuts = vec![0; rows * columns];
    sheet.counts = vec![0; columns];
    for column in 0..columns {
        let changes = check::changes(sheet, column);
        sheet.counts[column] = changes.len() as u16;
        for (number, place) in changes.into_iter().enumerate() {
            sheet.cuts[column * rows + number] = place as u16;
        }
    }
}
