//! Lists of ascending values from which a column's cells are drawn.
use crate::draw::Draw;
use crate::sheet::LARGEST;

/// `count` distinct values, ascending, of a drawn kind.
pub fn draw(draw: &mut Draw, count: usize) -> Vec<f64> {
    let mut values: Vec<f64> = match draw.below(8) {
        0 | 1 => (0..count).map(|k| k as f64).collect(),
        2 => neighbours(draw, count),
        3 => (0..count).map(|k| f64::from_bits(k as u64 + draw.below(2) as u64)).collect(),
        4 => around_zero(count),
        5 => extremes(count),
        6 => (0..count).map(|_| in_unit(draw) * 2.0 - 1.0).collect(),
        _ => (0..count).map(|_| any_size(draw)).collect(),
    };
    values.sort_by(f64::total_cmp);
    values
}

/// `count` values, ascending, each above the one before: a stretch of twice as many, of which some may be equal.
pub fn draw_apart(draw: &mut Draw, count: usize) -> Vec<f64> {
    loop {
        let mut values = self::draw(draw, 2 * count);
        values.dedup();
        if values.len() >= count {
            let from = draw.below(values.len() - count + 1);
            return values[from..from + count].to_vec();
        }
    }
}

fn in_unit(draw: &mut Draw) -> f64 {
    (draw.next() >> 11) as f64 / (1u64 << 53) as f64
}

/// Neighbouring doubles from a drawn one on.
fn neighbours(draw: &mut Draw, count: usize) -> Vec<f64> {
    let start = draw.of(&[0.5, 1.0, 1.5, 2.0 - f64::EPSILON, 3.0, 1024.0, 1e-300, 1e11, -1.0, -0.75]);
    let back = draw.below(4) as u64;
    let bits = f64::to_bits(start) - back;
    (0..count).map(|k| f64::from_bits(bits + k as u64)).collect()
}

/// Subnormals of both signs with both zeros among them.
fn around_zero(count: usize) -> Vec<f64> {
    let below = count / 2;
    (0..count).map(|k| if k < below { -f64::from_bits((below - k - 1) as u64) } else { f64::from_bits((k - below) as u64) }).collect()
}

/// The largest magnitudes that are taken, from both ends inwards.
fn extremes(count: usize) -> Vec<f64> {
    let bits = LARGEST.to_bits();
    (0..count).map(|k| if k % 2 == 0 { f64::from_bits(bits - k as u64) } else { -f64::from_bits(bits - k as u64 / 2) }).collect()
}

/// A value of any magnitude in range.
fn any_size(draw: &mut Draw) -> f64 {
    let value = f64::from_bits(draw.next() % (LARGEST.to_bits() + 1));
    if draw.one_in(2) {
        value
    } else {
        -value
    }
}

/// Either zero for a zero.
pub fn either_zero(draw: &mut Draw, value: f64) -> f64 {
    match value == 0.0 {
        true => draw.of(&[0.0, -0.0]),
        false => value,
    }
}
