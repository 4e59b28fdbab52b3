//! The original's pruning rules on every list of places up to 8. The program `pruner_replay` takes the cases in the same order. Each is asked of the
//! model as well.
use super::digests::{byte, every_list, Tally, NONE};
use crate::model::marks::{Mark, Marks};
use crate::model::pruning::{Column, Interval};
use contree::algorithms::interval_pruner::{Bound, IntervalsPruner};
use std::ops::Range;

const ERRORS: usize = 4;
const GAPS: usize = 5;
const BESTS: usize = 5;
/// What two errors can have above a best: 0 to 6.
const DIFFERENCES: usize = 2 * (ERRORS - 1) + 1;

/// A remembered cut and its two errors.
type Remembered = Option<(usize, [usize; 2])>;

struct Case<'a> {
    places: &'a [usize],
    remembered: [Remembered; 2],
    /// None: those that the remembered errors set.
    zeros: Option<[Option<usize>; 2]>,
}

/// The original and the model, of one gap.
struct Asked<'a>(IntervalsPruner<'a>, Column);

impl<'a> Case<'a> {
    fn pruner(&self, gap: usize, support: usize) -> IntervalsPruner<'a> {
        let mut pruner = IntervalsPruner::new(self.places, gap, support);
        for (cut, errors) in self.remembered.iter().flatten() {
            pruner.add_result(*cut, Some(errors[0]), Some(errors[1]));
        }
        if let Some(zeros) = self.zeros {
            [pruner.leftmost_zero_index, pruner.rightmost_zero_index] = zeros;
        }
        pruner
    }

    fn column(&self, gap: usize, support: usize) -> Column {
        let mut column = Column::new(self.places.to_vec(), gap, support);
        for (cut, errors) in self.remembered.iter().flatten() {
            column.record(*cut, *errors);
        }
        if let Some(zeros) = self.zeros {
            [column.left_zero, column.right_zero] = zeros;
        }
        column
    }

    /// For every gap: with support 0 and 1 in turn, which are one, or with support 2.
    fn asked(&self, small: bool) -> [Asked<'a>; GAPS] {
        std::array::from_fn(|gap| {
            let support = if small { gap % 2 } else { 2 };
            Asked(self.pruner(gap, support), self.column(gap, support))
        })
    }

    fn cuts(&self) -> [Option<usize>; 2] {
        self.remembered.map(|one| one.map(|(cut, _)| cut))
    }
}

fn none_or<T>(some: impl Iterator<Item = T>) -> impl Iterator<Item = Option<T>> {
    std::iter::once(None).chain(some.map(Some))
}

/// A cut with every pair of errors; no cut once.
fn with_errors(cut: Option<usize>) -> Vec<Remembered> {
    let pairs = || (0..ERRORS * ERRORS).map(|pair| [pair / ERRORS, pair % ERRORS]);
    cut.map_or(vec![None], |cut| pairs().map(|errors| Some((cut, errors))).collect())
}

/// Every interval with what a search may have remembered beside it: a cut below it on its left, one that is not below its last on its right.
pub fn shrinking() -> Vec<u8> {
    every_list("shrinking", |list, tally| {
        for (last, first) in (0..list.len()).flat_map(|last| (0..=last).map(move |first| (last, first))) {
            for right in none_or(last..list.len()) {
                for left in none_or(0..first) {
                    every_error(list, [first, last], [left, right], tally);
                    every_marking(list, [first, last], [left, right], tally);
                }
            }
        }
    })
}

/// With the marks that the errors set, and with none.
fn every_error(places: &[usize], ends: [usize; 2], [left, right]: [Option<usize>; 2], tally: &mut Tally) {
    for left in with_errors(left) {
        for right in with_errors(right) {
            for zeros in [None, Some([None, None])] {
                shrink_every_way(Case { places, remembered: [left, right], zeros }, ends, tally);
            }
        }
    }
}

/// With all other marks, and the remembered errors 0.
fn every_marking(places: &[usize], ends: [usize; 2], remembered: [Option<usize>; 2], tally: &mut Tally) {
    let remembered = remembered.map(|one| one.map(|cut| (cut, [0, 0])));
    for high in none_or(0..places.len()) {
        for low in none_or(0..places.len()) {
            if low.is_some() || high.is_some() {
                shrink_every_way(Case { places, remembered, zeros: Some([low, high]) }, ends, tally);
            }
        }
    }
}

fn shrink_every_way(case: Case, ends: [usize; 2], tally: &mut Tally) {
    for small in [true, false] {
        let asked = case.asked(small);
        for best in 0..BESTS {
            for one in &asked {
                shrink(one, ends, case.cuts(), best, tally);
            }
        }
    }
}

fn shrink(Asked(pruner, column): &Asked, ends: [usize; 2], remembered: [Option<usize>; 2], best: usize, tally: &mut Tally) {
    let ([first, last], [left, right]) = (ends, remembered);
    let mut bound = Bound::new(first, last, left, right);
    let hopeless = pruner.subinterval_pruning(&bound, best);
    pruner.interval_shrinking(&mut bound, best);
    let mut marks = Marks::default();
    let interval = Interval { first, last, left, right };
    assert_eq!(hopeless, column.hopeless(&interval, best, &mut marks));
    let kept = bound.is_valid().then_some((bound.left_bound, bound.right_bound));
    assert_eq!(kept, column.shrunk(&interval, best, &mut marks).map(|i| (i.first, i.last)));
    tally.count(&marks);
    let (first, last) = kept.unwrap_or((0, 0));
    tally.told([u8::from(kept.is_some()) | u8::from(hopeless) << 1, first as u8, last as u8, 0]);
}

/// Every interval with all marks.
pub fn neighbourhood() -> Vec<u8> {
    every_list("neighbourhood", |list, tally| {
        for (last, first) in (0..list.len()).flat_map(|last| (0..=last).map(move |first| (last, first))) {
            for high in none_or(0..list.len()) {
                for low in none_or(0..list.len()) {
                    let case = Case { places: list, remembered: [None, None], zeros: Some([low, high]) };
                    every_part(&case, [first, last], first..last + 1, tally);
                }
            }
        }
    })
}

fn every_part(case: &Case, ends: [usize; 2], cuts: Range<usize>, tally: &mut Tally) {
    for small in [true, false] {
        let asked = case.asked(small);
        for difference in 0..DIFFERENCES {
            for (gap, one) in asked.iter().enumerate() {
                for cut in cuts.clone() {
                    let parts = parts(one, ends, cut, [gap, difference], tally);
                    let marks = marks(case, cut, [gap, difference]);
                    tally.told([parts[0], parts[1], marks[0], marks[1]]);
                }
            }
        }
    }
}

/// The original names the start of an empty upper part by one past the interval's end, the model by the next cut that is far enough: told as none.
fn parts(Asked(pruner, column): &Asked, [first, last]: [usize; 2], cut: usize, [gap, difference]: [usize; 2], tally: &mut Tally) -> [u8; 2] {
    let (upper, lower) = pruner.neighbourhood_pruning(difference, first, last, cut);
    let mut marks = Marks::default();
    let model = column.upper_start(cut, difference + gap, &mut marks);
    assert!(model == upper || model > last && upper > last);
    assert_eq!(lower, column.lower_end(first, cut, difference + gap, &mut marks));
    marks.add_if(upper > last, Mark::UpperEmpty);
    marks.add_if(lower < first, Mark::LowerEmpty);
    tally.count(&marks);
    tally.renamed += u64::from(model != upper);
    [if upper > last { NONE } else { upper as u8 }, lower as u8]
}

/// The marks after one more try, with these errors.
fn marks(case: &Case, cut: usize, errors: [usize; 2]) -> [u8; 2] {
    let (mut pruner, mut column) = (case.pruner(0, 1), case.column(0, 1));
    pruner.add_result(cut, Some(errors[0]), Some(errors[1]));
    column.record(cut, errors);
    let marks = [pruner.leftmost_zero_index, pruner.rightmost_zero_index];
    assert_eq!(marks, [column.left_zero, column.right_zero]);
    marks.map(byte)
}
