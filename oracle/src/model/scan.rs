//! The scan of the two sides of a root split (document 01, "Scan of the two sides").
use super::marks::{Mark, Marks};
use super::{goes_left, threshold_between};
use crate::answer::Side;
use crate::sheet::{Sheet, MOST_LABELS};

type Counts = [usize; MOST_LABELS];

#[derive(Clone, Copy)]
struct Record {
    // the side itself
    own: Counts,
    rows: usize,
    leaf: (usize, usize),
    least: usize,
    labels: usize,
    // the best so far
    score: usize,
    split: Option<Side>,
    // the column being scanned
    counted: Counts,
    seen: usize,
    skip: usize,
    closed: bool,
    previous: Option<f64>,
}

/// The largest of the first `labels` counts and its label; the smallest code wins ties.
fn commonest(counts: &Counts, labels: usize) -> (usize, usize) {
    let mut best = (-1i64, 0);
    for (label, &count) in counts[..labels].iter().enumerate() {
        if count as i64 > best.0 {
            best = (count as i64, label);
        }
    }
    (best.0 as usize, best.1)
}

/// Both sides of the root split at `threshold` in column `root`, left then right.
pub fn sides(sheet: &Sheet, root: usize, threshold: f64, marks: &mut Marks) -> [Side; 2] {
    let side_of = |row: usize| usize::from(!goes_left(sheet.value(root, row), threshold));
    let mut records = [0, 1].map(|side| start(sheet, &|row| side_of(row) == side, marks));
    for column in 0..sheet.numbers.columns {
        scan_column(sheet, column, &side_of, &mut records, marks);
        // "Scanning stops after a column when both sides are perfect."
        if records.iter().all(|record| record.score == record.rows) {
            marks.add(Mark::BothPerfect);
            break;
        }
    }
    records.map(|record| finish(&record, marks))
}

/// "A side starts as a leaf: its commonest label, smallest code on ties; its score is that count."
fn start(sheet: &Sheet, inside: &dyn Fn(usize) -> bool, marks: &mut Marks) -> Record {
    let labels = sheet.numbers.labels;
    let mut own = [0; MOST_LABELS];
    for row in (0..sheet.numbers.rows).filter(|&row| inside(row)) {
        own[sheet.code(row)] += 1;
    }
    let leaf = commonest(&own, labels);
    marks.add_if(own[..labels].iter().filter(|&&count| count == leaf.0).count() > 1, Mark::LeafTie);
    marks.add_if(own[..labels].contains(&0), Mark::EmptyLabel);
    Record {
        own,
        rows: own.iter().sum(),
        leaf,
        least: sheet.numbers.support.max(1),
        labels,
        score: leaf.0,
        split: None,
        counted: [0; MOST_LABELS],
        seen: 0,
        skip: 0,
        closed: false,
        previous: None,
    }
}

fn scan_column(sheet: &Sheet, column: usize, side_of: &dyn Fn(usize) -> usize, records: &mut [Record; 2], marks: &mut Marks) {
    for record in records.iter_mut() {
        // "a column starts with counts, skip, closed mark and previous value cleared"
        *record = Record { counted: [0; MOST_LABELS], seen: 0, skip: 0, closed: false, previous: None, ..*record };
    }
    for place in 0..sheet.numbers.rows {
        let row = sheet.row_at(column, place);
        advance(&mut records[side_of(row)], column, sheet.value(column, row), sheet.code(row), marks);
        // "A column ends early once both sides are closed, or each side's skip is at least its rows not yet counted."
        if records.iter().all(|record| record.closed) {
            marks.add(Mark::EndBothClosed);
            return;
        }
        if records.iter().all(|record| record.skip >= record.rows - record.seen) {
            marks.add_if(place + 1 < sheet.numbers.rows, Mark::EndBySkips);
            return;
        }
    }
}

/// One row of a side.
fn advance(record: &mut Record, column: usize, value: f64, code: usize, marks: &mut Marks) {
    if record.closed {
        return;
    }
    record.skip = record.skip.saturating_sub(1);
    let equal = record.previous == Some(value);
    marks.add_if(equal, Mark::EqualValue);
    marks.add_if(!equal && record.skip > 0, Mark::Skipped);
    if !equal && record.skip == 0 {
        score_cut(record, column, value, marks);
    }
    record.seen += 1;
    record.counted[code] += 1;
    record.previous = Some(value);
}

/// "the cut before it is scored: best count before plus best count from here on"
fn score_cut(record: &mut Record, column: usize, value: f64, marks: &mut Marks) {
    let mut to_come = record.own;
    for (to_come, counted) in to_come.iter_mut().zip(record.counted) {
        *to_come -= counted;
    }
    let before = commonest(&record.counted, record.labels);
    let from_here = commonest(&to_come, record.labels);
    let total = before.0 + from_here.0;
    let rest = record.rows - record.seen;
    let supported = record.seen >= record.least && rest >= record.least;
    marks.add_if(!supported && record.seen > 0, Mark::Unsupported);
    if supported && total > record.score {
        marks.add(Mark::Taken);
        let previous = record.previous.expect("a supported cut has rows before it");
        record.score = total;
        record.split = Some(Side::Split {
            column,
            threshold: threshold_between(previous, value).to_bits(),
            labels: [before.1, from_here.1],
            errors: [record.seen - before.0, rest - from_here.0],
        });
    } else {
        record.skip = record.score.saturating_sub(total);
        marks.add_if(record.skip > 1, Mark::SkipSet);
    }
    close(record, from_here.0 == rest, supported, rest, marks);
}

/// "The side closes for this column if all rows from here on have one label, or if skip is at least their number."
fn close(record: &mut Record, pure: bool, supported: bool, rest: usize, marks: &mut Marks) {
    record.closed = pure || record.skip >= rest;
    marks.add_if(pure, Mark::ClosedPure);
    marks.add_if(pure && !supported && record.seen > 0, Mark::ClosedPureUnsupported);
    marks.add_if(!pure && record.closed, Mark::ClosedBySkip);
}

/// "A side whose score equals its leaf's stays a leaf."
fn finish(record: &Record, marks: &mut Marks) -> Side {
    if record.score == record.leaf.0 {
        marks.add(Mark::StaysLeaf);
        return Side::Leaf { label: record.leaf.1, error: record.rows - record.leaf.0 };
    }
    marks.add(Mark::BecomesSplit);
    record.split.expect("a score above the leaf's comes from a split")
}
