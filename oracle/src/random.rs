//! Drawn sheets of every size around every limit.
use crate::answer::Answer;
use crate::draw::Draw;
use crate::halves;
use crate::model::{self, marks::Marks, prepare};
use crate::palette;
use crate::sheet::*;

/// Rows × columns × columns above which a drawn sheet is given fewer distinct values, so that one sheet never takes long.
const WORK: usize = 1 << 16;

/// One drawn sheet in so many of a run is one for columns that the port sorts by halves.
const BY_HALVES_ONE_IN: u64 = 200;

/// The numbered sheet of a seed, prepared, its tied rows in a drawn order.
pub fn sheet(seed: u64, number: u64) -> Sheet {
    let mut draw = Draw::at(seed, number);
    let rows = draw_rows(&mut draw);
    drawn(&mut draw, rows, draw_column)
}

/// The numbered sheet of a run: that of the seed, or one with columns that the port sorts by halves. Those stand apart, since they want more rows
/// than a sheet mostly has, and since the recorded sheets are those of a seed.
pub fn sheet_of_run(seed: u64, number: u64) -> Sheet {
    if number % BY_HALVES_ONE_IN != BY_HALVES_ONE_IN - 1 {
        return sheet(seed, number);
    }
    let mut draw = Draw::at(seed, number);
    let rows = draw_many_rows(&mut draw);
    drawn(&mut draw, rows, draw_column_by_halves)
}

/// A sheet of so many rows whose columns' values are drawn by `draw_column`, which is told the rows and how many distinct values they may have.
fn drawn(draw: &mut Draw, rows: usize, draw_column: fn(&mut Draw, usize, usize) -> Vec<f64>) -> Sheet {
    let columns = draw_columns(draw, rows);
    let labels = draw_labels(draw, rows);
    let mut sheet = Sheet { numbers: Numbers { rows, columns, labels, ..Numbers::default() }, ..Sheet::default() };
    for _ in 0..columns {
        let distinct = draw_distinct(draw, rows, columns);
        sheet.values.extend(draw_column(draw, rows, distinct));
    }
    draw_codes(draw, &mut sheet);
    prepare::prepare(&mut sheet);
    permute_ties(draw, &mut sheet);
    draw_limits(draw, &mut sheet);
    sheet
}

fn draw_column(draw: &mut Draw, rows: usize, distinct: usize) -> Vec<f64> {
    let values = palette::draw(draw, distinct);
    let mut cell = || {
        let value = draw.of(&values);
        palette::either_zero(draw, value)
    };
    (0..rows).map(|_| cell()).collect()
}

/// A column that the port sorts by halves, its inner rows with so many values; one in four is drawn as elsewhere.
fn draw_column_by_halves(draw: &mut Draw, rows: usize, inner: usize) -> Vec<f64> {
    if draw.one_in(4) {
        return draw_column(draw, rows, inner);
    }
    let ranks = halves::column(draw, rows, inner);
    let values = palette::draw_apart(draw, halves::ranks(inner));
    ranks.into_iter().map(|rank| palette::either_zero(draw, values[rank])).collect()
}

fn draw_rows(draw: &mut Draw) -> usize {
    match draw.below(1000) {
        0..=849 => draw.between(1, 16),
        850..=979 => draw.between(17, 64),
        980..=996 => draw.between(65, 400),
        _ => draw.of(&[511, 512, 1023, 2048, 4095, 4096]),
    }
}

/// Rows enough for a column that is sorted by halves.
fn draw_many_rows(draw: &mut Draw) -> usize {
    match draw.below(20) {
        0..=3 => halves::FEWEST_ROWS + draw.below(3),
        4..=18 => draw.between(halves::FEWEST_ROWS, 400),
        _ => draw.of(&[511, 512, 1023, 2048, 4095, 4096]),
    }
}

fn draw_columns(draw: &mut Draw, rows: usize) -> usize {
    match draw.below(40) {
        0 if rows < 64 => draw.between(5, 16),
        1 if rows < 64 => 16,
        2..=9 => draw.between(3, 4),
        10..=24 => 2,
        _ => 1,
    }
}

fn draw_labels(draw: &mut Draw, rows: usize) -> usize {
    match draw.below(12) {
        0 => MOST_LABELS,
        1 => draw.between(1, MOST_LABELS),
        2 => rows.min(MOST_LABELS),
        3..=5 => draw.between(3, 4),
        _ => 2,
    }
}

fn draw_distinct(draw: &mut Draw, rows: usize, columns: usize) -> usize {
    let most = (WORK / (rows * columns * columns)).clamp(2, rows.max(2));
    match draw.below(4) {
        0 => draw.between(1, most.min(4)),
        1 => draw.between(1, most),
        _ => most,
    }
}

/// Labels drawn freely, or after the values of one or two columns with some noise; at times labels with no rows.
fn draw_codes(draw: &mut Draw, sheet: &mut Sheet) {
    let Numbers { rows, columns, labels, .. } = sheet.numbers;
    let used = if draw.one_in(3) { draw.between(1, labels) } else { labels };
    let free = draw.one_in(2);
    let asked = [draw.below(columns), draw.below(columns)];
    let at = asked.map(|column| sheet.value(column, draw.below(rows)));
    let names = [0, 1, 2, 3].map(|_| draw.below(used) as u8);
    let noise = draw.of(&[1000, 20, 5]);
    for row in 0..rows {
        let above = |k: usize| usize::from(sheet.value(asked[k], row) > at[k]);
        let code = if free || draw.one_in(noise) { draw.below(used) as u8 } else { names[2 * above(0) + above(1)] };
        sheet.codes.push(code);
    }
}

/// Rows of equal value change places in the order list.
fn permute_ties(draw: &mut Draw, sheet: &mut Sheet) {
    if draw.one_in(3) {
        return;
    }
    let rows = sheet.numbers.rows;
    for column in 0..sheet.numbers.columns {
        let mut ends = vec![0];
        ends.extend(sheet.places(column));
        ends.push(rows);
        for pair in ends.windows(2) {
            draw.shuffle(&mut sheet.order[column * rows + pair[0]..column * rows + pair[1]]);
        }
    }
}

/// Support, gap, starting error and bound: mostly near the error that the sheet can reach.
fn draw_limits(draw: &mut Draw, sheet: &mut Sheet) {
    let rows = sheet.numbers.rows;
    sheet.numbers.support = match draw.below(20) {
        0 => draw.of(&[MOST_SUPPORT, rows, rows / 2, rows / 2 + 1]).min(MOST_SUPPORT),
        1..=5 => draw.between(2, 3 + rows / 4),
        6 => 0,
        7 | 8 => 2,
        _ => 1,
    };
    sheet.numbers.error = MOST_ERROR;
    sheet.numbers.bound = MOST_ERROR;
    let reached = match model::search_checked(sheet, &mut Marks::default()) {
        Answer::Found { error, .. } => error,
        _ => rows / 2,
    };
    sheet.numbers.gap = draw_near(draw, 0, [0, 0, 0, 0, 1, 2, rows]);
    sheet.numbers.error = draw_near(draw, reached, [0, 1, rows, rows, MOST_ERROR, MOST_ERROR, MOST_ERROR]);
    sheet.numbers.bound = draw_near(draw, reached, [0, 1, rows, MOST_ERROR, MOST_ERROR, MOST_ERROR, MOST_ERROR]);
}

fn draw_near(draw: &mut Draw, reached: usize, others: [usize; 7]) -> usize {
    match draw.one_in(2) {
        true => (reached + draw.below(6)).saturating_sub(2),
        false => draw.of(&others),
    }
}
