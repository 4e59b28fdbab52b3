//! An independent model of document 01, written from its sentences and not from the Rust. Plain and slow where plain is clearer: lookups walk,
//! and a row's side is asked of its value each time. `marks` notes which branches of the prose a sheet takes.
pub mod check;
pub mod judge;
pub mod least;
pub mod marks;
pub mod prepare;
pub mod pruning;
pub mod scan;

use crate::answer::{Answer, Tree};
use crate::sheet::Sheet;
use marks::{Mark, Marks};
use pruning::{Column, Interval};
use std::collections::VecDeque;

/// Half of the rounded sum; if that is not below the upper value, the lower value.
pub fn threshold_between(lower: f64, upper: f64) -> f64 {
    let half = (lower + upper) / 2.0;
    if half < upper {
        half
    } else {
        lower
    }
}

/// Rows with value ≤ threshold go left.
pub fn goes_left(value: f64, threshold: f64) -> bool {
    value <= threshold
}

/// The whole search, its input check first.
pub fn search(sheet: &Sheet, scratch: usize, marks: &mut Marks) -> Answer {
    match check::turned_back(sheet, scratch) {
        Some((number, place)) => Answer::TurnedBack { number, place },
        None => search_checked(sheet, marks),
    }
}

/// What the search has found so far.
struct State {
    error: usize,
    tried: usize,
    tree: Option<Tree>,
}

/// The search of a sheet that the check lets through.
pub fn search_checked(sheet: &Sheet, marks: &mut Marks) -> Answer {
    let mut state = State { error: sheet.numbers.error, tried: 0, tree: None };
    for column in 0..sheet.numbers.columns {
        search_column(sheet, column, &mut state, marks);
        // "After a column, stop if the error is at most the gap."
        if state.error <= sheet.numbers.gap {
            marks.add(Mark::StopAtGap);
            break;
        }
    }
    match state.tree {
        None => Answer::Kept { error: state.error, tried: state.tried },
        Some(tree) => Answer::Found { error: state.error, tree, tried: state.tried },
    }
}

/// "Feasible cuts leave max(support, 1) rows on each side; none if rows are fewer than twice that." First and last number.
pub fn feasible(places: &[usize], rows: usize, support: usize) -> Option<(usize, usize)> {
    let least = support.max(1);
    if rows < 2 * least {
        return None;
    }
    let enough = |place: usize| place >= least && rows - place >= least;
    let numbers: Vec<usize> = (0..places.len()).filter(|&k| enough(places[k])).collect();
    numbers.first().map(|&first| (first, numbers[numbers.len() - 1]))
}

fn search_column(sheet: &Sheet, number: usize, state: &mut State, marks: &mut Marks) {
    let numbers = sheet.numbers;
    let places = sheet.places(number);
    let Some((first, last)) = feasible(&places, numbers.rows, numbers.support) else {
        marks.add(Mark::NoFeasible);
        return;
    };
    let mut column = Column::new(places, numbers.gap, numbers.support);
    let mut queue = VecDeque::from([Interval { first, last, left: None, right: None }]);
    while let Some(interval) = queue.pop_front() {
        // Let B be the smaller of the current error and the upper bound.
        let b = state.error.min(numbers.bound);
        if column.hopeless(&interval, b, marks) {
            continue;
        }
        let Some(interval) = column.shrunk(&interval, b, marks) else { continue };
        let cut = (interval.first + interval.last) / 2;
        if try_cut(sheet, number, &mut column, cut, state, marks) {
            return;
        }
        let b = state.error.min(numbers.bound);
        queue.extend(column.parts(&interval, cut, b, marks));
    }
}

/// Steps 3 and 4: whether the column ends.
fn try_cut(sheet: &Sheet, number: usize, column: &mut Column, cut: usize, state: &mut State, marks: &mut Marks) -> bool {
    state.tried += 1;
    // "between the values at the preceding cut's place (place 0 for cut number 0) and this cut's place"
    let before = if cut == 0 { 0 } else { column.places[cut - 1] };
    let (lower, upper) = (sheet.value_at(number, before), sheet.value_at(number, column.places[cut]));
    let threshold = threshold_between(lower, upper);
    marks.add_if((lower + upper) / 2.0 >= upper, Mark::Fallback);
    let sides = scan::sides(sheet, number, threshold, marks);
    let errors = sides.map(|side| side.error());
    column.record(cut, errors);
    let error = errors[0] + errors[1];
    marks.note_try(cut, error, state.error, column.small);
    if error < state.error {
        state.error = error;
        state.tree = Some(Tree { column: number, threshold: threshold.to_bits(), sides });
        return error == 0;
    }
    false
}
