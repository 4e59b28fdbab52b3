//! Damaged copies of drawn sheets' bytes, with the refusal that the model of document 01's program gives (the original has none).
use super::sheets::record;
use crate::draw::Draw;
use crate::sheet::{LARGEST, MOST_ERROR, MOST_SUPPORT};
use crate::{listing, random};

const SHEETS: usize = 400;
const MOST_CELLS: usize = 40;
const HEADER: usize = 20;
/// Rows and columns at and past the limits of document 01 and of the program.
const SHAPES: [(u16, u8); 9] = [(0, 1), (1, 0), (1, 17), (2_048, 4), (2_049, 1), (512, 16), (513, 16), (4_096, 16), (4_097, 1)];

pub fn refused(seed: u64) -> (Vec<u8>, usize) {
    let mut draw = Draw::new(seed);
    let (mut out, mut count, mut number, mut reasons) = (Vec::new(), 0, 0, [0; 32]);
    while count < SHEETS {
        number += 1;
        let sheet = random::sheet(seed, number);
        if sheet.numbers.rows * sheet.numbers.columns > MOST_CELLS {
            continue;
        }
        let mut bytes = listing::bytes(&sheet);
        for _ in 0..draw.of(&[1, 1, 2, 3]) {
            damage(&mut draw, &mut bytes);
        }
        let Err(refusal) = listing::read(&bytes) else { continue };
        reasons[refusal.0 as usize] += 1;
        record(&mut out, &bytes, &listing::refused(refusal));
        count += 1;
    }
    for (reason, times) in reasons.iter().enumerate().filter(|(_, times)| **times > 0) {
        println!("refused.bin: {times:>6} reason {reason}");
    }
    (out, count)
}

fn damage(draw: &mut Draw, bytes: &mut Vec<u8>) {
    match draw.below(9) {
        0 => bytes.truncate(draw.below(bytes.len() + 1)),
        1 => bytes.extend([0, 1].iter().take(draw.between(1, 2))),
        2 => put(bytes, draw.below(2), &[draw.of(b"HDRW\0")]),
        3 => {
            let (rows, columns) = draw.of(&SHAPES);
            put(bytes, 2, &[rows as u8, (rows >> 8) as u8, columns]);
        }
        4 => put(bytes, 5, &[draw.of(&[0, 1, 32, 33, 255])]),
        5 => put(bytes, 6, &((MOST_SUPPORT + draw.below(2)) as u16).to_le_bytes()),
        6 => put(bytes, 8 + 4 * draw.below(3), &((MOST_ERROR + draw.below(3)) as u32).to_le_bytes()),
        7 => damage_row(draw, bytes),
        _ => {
            let at = draw.below(bytes.len() + 1);
            put(bytes, at, &[draw.of(&[0, 1, 127, 240, 255])]);
        }
    }
}

/// A row's mark, label, or one of its values, near or past their limits.
fn damage_row(draw: &mut Draw, bytes: &mut [u8]) {
    if bytes.len() <= HEADER || bytes[4] == 0 {
        return;
    }
    let columns = bytes[4] as usize;
    let size = 3 + 8 * columns;
    let row = HEADER + size * draw.below((bytes.len() - HEADER).div_ceil(size));
    match draw.below(4) {
        0 => put(bytes, row + draw.below(2), b"V"),
        1 => put(bytes, row + 2, &[draw.of(&[bytes[5], 31, 32, 255])]),
        _ => {
            let past = LARGEST.to_bits() + 1;
            let bits = [f64::INFINITY.to_bits(), f64::NAN.to_bits(), past - 1, past, past | 1 << 63, f64::NEG_INFINITY.to_bits()];
            put(bytes, row + 3 + 8 * draw.below(columns), &draw.of(&bits).to_le_bytes());
        }
    }
}

/// The bytes from `at` on, as many as there are.
fn put(bytes: &mut [u8], at: usize, new: &[u8]) {
    for (byte, new) in bytes.iter_mut().skip(at).zip(new) {
        *byte = *new;
    }
}
