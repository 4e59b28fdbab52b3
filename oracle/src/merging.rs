//! What the original's own preparation changes, which merges neighbours closer than `f64::EPSILON`: the first small sheet of each kind, fewest
//! cells first. Column 0 is ascending, its steps 0 or around 2^-52; column 1, if there is one, has values 0, 1, 2.
use crate::answer::Answer;
use crate::listing;
use crate::model::{judge, prepare};
use crate::original::{self, Ids};
use crate::sheet::{Numbers, Sheet, MOST_ERROR};

/// Half of `f64::EPSILON`, the unit of the steps.
const UNIT: f64 = f64::EPSILON / 2.0;
const STEPS: [f64; 5] = [0.0, 1.5, 1.75, 2.0, 2.25];
const SHAPES: [(usize, usize); 8] = [(2, 1), (3, 1), (2, 2), (4, 1), (5, 1), (3, 2), (4, 2), (5, 2)];
const KINDS: [&str; 4] = ["another outcome or error", "another tree or tried count", "a listed error that is not its tree's", "a panic"];

/// The sheet of a number in its shape; None past the last one.
fn sheet(rows: usize, columns: usize, mut number: usize) -> Option<Sheet> {
    let mut take = |below: usize| {
        let digit = number % below;
        number /= below;
        digit
    };
    let mut values = vec![0.0];
    for _ in 1..rows {
        values.push(values[values.len() - 1] + STEPS[take(STEPS.len())] * UNIT);
    }
    values.extend((rows..rows * columns).map(|_| take(3) as f64));
    let codes = (0..rows).map(|_| take(2) as u8).collect();
    let numbers = Numbers { rows, columns, labels: 2, support: 1, gap: 0, error: rows, bound: MOST_ERROR };
    let mut sheet = Sheet { numbers, values, codes, ..Sheet::default() };
    prepare::prepare(&mut sheet);
    (number == 0).then_some(sheet)
}

fn summary(answer: &Answer) -> (bool, usize) {
    match answer {
        Answer::Found { error, .. } => (true, *error),
        Answer::Kept { error, .. } => (false, *error),
        Answer::TurnedBack { .. } => (false, 0),
    }
}

/// Which kind of difference the sheet shows, if any.
fn kind(sheet: &Sheet, merged: Option<Answer>) -> Option<usize> {
    let Some(merged) = merged else { return Some(3) };
    let ours = original::search(sheet, Ids::ByEquality).expect("no panic with ids by equality");
    match merged {
        Answer::Found { error, tree, .. } if judge::mistakes(sheet, &tree) != error => Some(2),
        _ if summary(&ours) != summary(&merged) => Some(0),
        _ => (ours != merged).then_some(1),
    }
}

fn tell(kind: usize, sheet: &Sheet, merged: Option<Answer>) {
    let n = sheet.numbers;
    println!("{}: first with {} rows, {} columns, labels {:?}", KINDS[kind], n.rows, n.columns, sheet.codes);
    for column in 0..n.columns {
        let scale = if column == 0 { UNIT } else { 1.0 };
        let shown: Vec<f64> = (0..n.rows).map(|row| sheet.value(column, row) / scale).collect();
        println!("column {column}: {shown:?}{}", if column == 0 { " times 2^-53" } else { "" });
    }
    print!("by equality:\n{}merged:\n", listing::text(&original::search(sheet, Ids::ByEquality).expect("no panic with ids by equality")));
    print!("{}", merged.map_or("PANICS\n".to_string(), |merged| listing::text(&merged)));
}

pub fn run() {
    std::panic::set_hook(Box::new(|_| ()));
    let mut times = [0; KINDS.len()];
    let mut sheets = 0;
    for (rows, columns) in SHAPES {
        for sheet in (0..).map_while(|number| sheet(rows, columns, number)) {
            sheets += 1;
            let merged = original::search(&sheet, Ids::Merged);
            let Some(kind) = kind(&sheet, merged) else { continue };
            times[kind] += 1;
            if times[kind] == 1 {
                tell(kind, &sheet, merged);
            }
        }
    }
    for (kind, times) in KINDS.iter().zip(times) {
        println!("{times:>10} {kind}");
    }
    println!("{sheets} sheets");
}
