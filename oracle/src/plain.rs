//! A sheet written by hand: a line `labels support gap error bound`, then a line for each row, its label and its values, each a decimal or
//! `x` and 16 hex digits of its bits. `#` starts a comment.
use crate::sheet::{Numbers, Sheet};

pub fn parse(text: &str) -> Result<Sheet, String> {
    let lines: Vec<Vec<&str>> = text
        .lines()
        .map(|line| line.split('#').next().unwrap_or("").split_whitespace().collect::<Vec<&str>>())
        .filter(|words| !words.is_empty())
        .collect();
    let (head, rows) = lines.split_first().ok_or("no line")?;
    let head: Vec<usize> = head.iter().map(|word| word.parse().map_err(|_| format!("no number: {word}"))).collect::<Result<_, _>>()?;
    let [labels, support, gap, error, bound] = head[..] else { return Err("the first line has five numbers".to_string()) };
    let columns = rows.first().map_or(0, |row| row.len() - 1);
    if rows.iter().any(|row| row.len() != columns + 1) {
        return Err("every row has a label and the same number of values".to_string());
    }
    let numbers = Numbers { rows: rows.len(), columns, labels, support, gap, error, bound };
    let mut sheet = Sheet { numbers, ..Sheet::default() };
    for row in rows {
        sheet.codes.push(row[0].parse().map_err(|_| format!("no label: {}", row[0]))?);
    }
    for column in 0..columns {
        for row in rows {
            sheet.values.push(value(row[column + 1])?);
        }
    }
    Ok(sheet)
}

fn value(word: &str) -> Result<f64, String> {
    let bits = word.strip_prefix('x').map(|hex| u64::from_str_radix(hex, 16));
    match bits {
        Some(bits) => bits.map(f64::from_bits).map_err(|_| format!("no bits: {word}")),
        None => word.parse().map_err(|_| format!("no value: {word}")),
    }
}
