//! Damaged copies of a sheet's lists and numbers, near each line of document 01's table of reasons.
use crate::draw::Draw;
use crate::sheet::*;

/// A copy with one or two damages, and the length of the scratch to lend.
pub fn damaged(draw: &mut Draw, sheet: &Sheet) -> (Sheet, usize) {
    let mut copy = sheet.clone();
    let mut scratch = SCRATCH_PER_ROW * sheet.numbers.rows + draw.below(3);
    for _ in 0..draw.of(&[1, 1, 1, 2]) {
        match draw.below(10) {
            0 => damage_shape(draw, &mut copy.numbers),
            1 => damage_length(draw, &mut copy),
            2 => scratch = (SCRATCH_PER_ROW * sheet.numbers.rows).saturating_sub(draw.below(2)),
            3 => damage_limit(draw, &mut copy.numbers),
            4 => damage_value(draw, &mut copy),
            5 => put(draw, &mut copy.codes, &[sheet.numbers.labels as u8, 31, 32, 255]),
            6 => damage_order(draw, &mut copy),
            7 => swap_rows(draw, &mut copy),
            8 => put(draw, &mut copy.counts, &[0, 1, sheet.numbers.rows as u16, u16::MAX]),
            _ => put(draw, &mut copy.cuts, &[0, 1, sheet.numbers.rows as u16 - 1, u16::MAX]),
        }
    }
    (copy, scratch)
}

/// One entry becomes one of the list's.
fn put<T: Copy>(draw: &mut Draw, entries: &mut [T], list: &[T]) {
    if !entries.is_empty() {
        entries[draw.below(entries.len())] = draw.of(list);
    }
}

fn damage_shape(draw: &mut Draw, n: &mut Numbers) {
    match draw.below(3) {
        0 => n.rows = draw.of(&[0, MOST_ROWS, MOST_ROWS + 1]),
        1 => n.columns = draw.of(&[0, MOST_COLUMNS, MOST_COLUMNS + 1]),
        _ => n.labels = draw.of(&[0, 1, MOST_LABELS, MOST_LABELS + 1]),
    }
}

fn damage_length(draw: &mut Draw, sheet: &mut Sheet) {
    let longer = draw.one_in(2);
    fn change<T: Default>(list: &mut Vec<T>, longer: bool) {
        if longer {
            list.push(T::default());
        } else {
            list.pop();
        }
    }
    match draw.below(5) {
        0 => change(&mut sheet.values, longer),
        1 => change(&mut sheet.codes, longer),
        2 => change(&mut sheet.order, longer),
        3 => change(&mut sheet.cuts, longer),
        _ => change(&mut sheet.counts, longer),
    }
}

fn damage_limit(draw: &mut Draw, n: &mut Numbers) {
    let past = draw.below(2);
    match draw.below(4) {
        0 => n.support = MOST_SUPPORT + past,
        1 => n.gap = MOST_ERROR + past,
        2 => n.error = MOST_ERROR + past,
        _ => n.bound = MOST_ERROR + past,
    }
}

fn damage_value(draw: &mut Draw, sheet: &mut Sheet) {
    let past = f64::from_bits(LARGEST.to_bits() + 1);
    put(draw, &mut sheet.values, &[f64::NAN, f64::INFINITY, f64::NEG_INFINITY, past, -past, LARGEST, -LARGEST, 0.0]);
}

fn damage_order(draw: &mut Draw, sheet: &mut Sheet) {
    let rows = sheet.numbers.rows as u16;
    let other = draw.below(rows.max(1) as usize) as u16;
    put(draw, &mut sheet.order, &[rows, rows.wrapping_sub(1), other, other, u16::MAX]);
}

/// Two rows of one column change places.
fn swap_rows(draw: &mut Draw, sheet: &mut Sheet) {
    let Numbers { rows, columns, .. } = sheet.numbers;
    if sheet.order.len() == rows * columns && !sheet.order.is_empty() {
        let from = rows * draw.below(columns);
        sheet.order.swap(from + draw.below(rows), from + draw.below(rows));
    }
}
