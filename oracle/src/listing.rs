//! The program's two forms (document 01, "Program"): a sheet as bytes, an answer as text.
use crate::answer::{Answer, Side};
use crate::model::{check, prepare};
use crate::sheet::{Numbers, Sheet};

const HEADER: usize = 20;
const MOST_PROGRAM_ROWS: usize = 2_048;
const MOST_PROGRAM_CELLS: usize = 8_192;

pub type Refusal = (u8, usize);

pub fn refused((number, place): Refusal) -> String {
    format!("REFUSED {number} place={place}\n")
}

pub fn text(answer: &Answer) -> String {
    match answer {
        Answer::TurnedBack { number, place } => refused((*number, *place)),
        Answer::Kept { error, tried } => format!("KEPT error={error} tried={tried}\n"),
        Answer::Found { error, tree, tried } => format!(
            "FOUND error={error} column={} at={:016X} tried={tried}\n{}{}",
            tree.column,
            tree.threshold,
            side_text('L', &tree.sides[0]),
            side_text('R', &tree.sides[1])
        ),
    }
}

fn side_text(name: char, side: &Side) -> String {
    match side {
        Side::Leaf { label, error } => format!("{name} LEAF label={label} error={error}\n"),
        Side::Split { column, threshold, labels, errors } => {
            format!("{name} SPLIT column={column} at={threshold:016X} left={}/{} right={}/{}\n", labels[0], errors[0], labels[1], errors[1])
        }
    }
}

/// The sheet's bytes.
pub fn bytes(sheet: &Sheet) -> Vec<u8> {
    let n = sheet.numbers;
    let mut out = b"HD".to_vec();
    out.extend((n.rows as u16).to_le_bytes());
    out.extend([n.columns as u8, n.labels as u8]);
    out.extend((n.support as u16).to_le_bytes());
    for number in [n.gap, n.error, n.bound] {
        out.extend((number as u32).to_le_bytes());
    }
    for row in 0..n.rows {
        out.extend(b"RW");
        out.push(sheet.codes[row]);
        for column in 0..n.columns {
            out.extend(sheet.value(column, row).to_bits().to_le_bytes());
        }
    }
    out
}

fn number(bytes: &[u8]) -> usize {
    bytes.iter().rev().fold(0, |sum, &byte| sum << 8 | byte as usize)
}

/// The sheet of some bytes, prepared; or the refusal, in the order 20, 1, 21, 22, 23, 4, 5, 6.
pub fn read(bytes: &[u8]) -> Result<Sheet, Refusal> {
    if bytes.len() < HEADER || &bytes[..2] != b"HD" {
        return Err((20, 0));
    }
    let field = |at: usize, size: usize| number(&bytes[at..at + size]);
    let numbers = Numbers {
        rows: field(2, 2),
        columns: field(4, 1),
        labels: field(5, 1),
        support: field(6, 2),
        gap: field(8, 4),
        error: field(12, 4),
        bound: field(16, 4),
    };
    if check::outside_limits(&numbers) {
        return Err((1, 0));
    }
    if numbers.rows > MOST_PROGRAM_ROWS || numbers.rows * numbers.columns > MOST_PROGRAM_CELLS {
        return Err((21, 0));
    }
    let mut sheet = read_rows(numbers, &bytes[HEADER..])?;
    if check::above_its_limit(&numbers) {
        return Err((4, 0));
    }
    check::bad_value(&sheet).map_or(Ok(()), |place| Err((5, place)))?;
    check::bad_code(&sheet).map_or(Ok(()), |place| Err((6, place)))?;
    prepare::prepare(&mut sheet);
    Ok(sheet)
}

fn read_rows(numbers: Numbers, bytes: &[u8]) -> Result<Sheet, Refusal> {
    let Numbers { rows, columns, .. } = numbers;
    let size = 3 + 8 * columns;
    let mut sheet = Sheet { numbers, values: vec![0.0; rows * columns], codes: vec![0; rows], ..Sheet::default() };
    for row in 0..rows {
        let record = bytes.get(row * size..(row + 1) * size).filter(|record| &record[..2] == b"RW").ok_or((22, row))?;
        sheet.codes[row] = record[2];
        for column in 0..columns {
            let at = 3 + 8 * column;
            sheet.values[column * rows + row] = f64::from_bits(number(&record[at..at + 8]) as u64);
        }
    }
    if bytes.len() > rows * size {
        return Err((23, 0));
    }
    Ok(sheet)
}
