//! Every small sheet, by number: up to 5 rows, 1 or 2 columns of up to 3 distinct values, 3 labels, supports 0 to 3, gaps 0 to 2, errors and bounds
//! 0 to 6 and 1,000,000. A run walks the numbers by a fixed step that reaches all of them before it comes back.
use crate::model::prepare;
use crate::sheet::{Numbers, Sheet, MOST_ERROR};

const VALUES: u128 = 3;
const LABELS: usize = 3;
const SUPPORTS: u128 = 4;
const GAPS: u128 = 3;
const ERRORS: u128 = 8;
const MOST_SMALL_ROWS: usize = 5;
/// Which three doubles stand for the three values.
const PALETTES: [[f64; 3]; 4] = [[1.0, 2.0, 3.0], [-0.0, 5e-324, 1e-323], [0.5, 0.5000000000000001, 0.5000000000000002], [-1e12, 0.0, 1e12]];

fn sheets_of(rows: usize, columns: usize) -> u128 {
    let cells = VALUES.pow((rows * columns) as u32);
    cells * (LABELS as u128).pow(rows as u32) * SUPPORTS * GAPS * ERRORS * ERRORS
}

fn shapes(most_rows: usize) -> impl Iterator<Item = (usize, usize)> {
    (1..=most_rows).flat_map(|rows| [(rows, 1), (rows, 2)])
}

pub fn total(most_rows: usize) -> u128 {
    shapes(most_rows).map(|(rows, columns)| sheets_of(rows, columns)).sum()
}

/// The number of the `turn`-th sheet of a walk: a step near the golden section of the total, with no factor in common with it.
pub fn walk(turn: u64, seed: u64, total: u128) -> u128 {
    let mut step = (total * 618_033_989 / 1_000_000_000) | 1;
    while common_factor(step, total) != 1 {
        step += 2;
    }
    (seed as u128 + turn as u128 * step) % total
}

fn common_factor(a: u128, b: u128) -> u128 {
    if b == 0 {
        a
    } else {
        common_factor(b, a % b)
    }
}

fn take(number: &mut u128, below: u128) -> usize {
    let digit = *number % below;
    *number /= below;
    digit as usize
}

fn error(digit: usize) -> usize {
    if digit + 1 == ERRORS as usize {
        MOST_ERROR
    } else {
        digit
    }
}

/// The sheet of a number below `total(5)`, prepared.
pub fn sheet(mut number: u128) -> Sheet {
    let (rows, columns) = shapes(MOST_SMALL_ROWS)
        .find(|&(rows, columns)| {
            let inside = number < sheets_of(rows, columns);
            number -= if inside { 0 } else { sheets_of(rows, columns) };
            inside
        })
        .expect("a number below the total");
    let palette = PALETTES[(number % 7 % 4) as usize];
    let support = take(&mut number, SUPPORTS);
    let gap = take(&mut number, GAPS);
    let starting = error(take(&mut number, ERRORS));
    let bound = error(take(&mut number, ERRORS));
    let codes = (0..rows).map(|_| take(&mut number, LABELS as u128) as u8).collect();
    let values = (0..rows * columns).map(|_| palette[take(&mut number, VALUES)]).collect();
    let numbers = Numbers { rows, columns, labels: LABELS, support, gap, error: starting, bound };
    let mut sheet = Sheet { numbers, values, codes, ..Sheet::default() };
    prepare::prepare(&mut sheet);
    sheet
}
