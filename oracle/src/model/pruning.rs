//! Steps 1, 2 and 5 of document 01's search, over one column's cut places and what was recorded of its tried cuts.
use super::marks::{Mark, Marks};

/// Cut numbers first to last, and the remembered left and right cut.
#[derive(Clone, Copy, Debug, PartialEq, Eq)]
pub struct Interval {
    pub first: usize,
    pub last: usize,
    pub left: Option<usize>,
    pub right: Option<usize>,
}

pub struct Column {
    pub places: Vec<usize>,
    pub gap: usize,
    /// support ≤ 1
    pub small: bool,
    /// The left and right error of each tried cut.
    pub errors: Vec<Option<[usize; 2]>>,
    /// The highest tried cut with left error 0.
    pub left_zero: Option<usize>,
    /// The lowest tried cut with right error 0.
    pub right_zero: Option<usize>,
}

impl Column {
    pub fn new(places: Vec<usize>, gap: usize, support: usize) -> Column {
        let errors = vec![None; places.len()];
        Column { places, gap, small: support <= 1, errors, left_zero: None, right_zero: None }
    }

    pub fn record(&mut self, cut: usize, errors: [usize; 2]) {
        self.errors[cut] = Some(errors);
        if errors[0] == 0 {
            self.left_zero = Some(self.left_zero.map_or(cut, |zero| zero.max(cut)));
        }
        if errors[1] == 0 {
            self.right_zero = Some(self.right_zero.map_or(cut, |zero| zero.min(cut)));
        }
    }

    fn errors_at(&self, cut: usize) -> [usize; 2] {
        self.errors[cut].expect("a remembered cut was tried")
    }

    /// Step 1.
    pub fn hopeless(&self, interval: &Interval, b: usize, marks: &mut Marks) -> bool {
        if !self.small {
            return false;
        }
        let left = interval.left.map_or(0, |cut| self.errors_at(cut)[0]);
        let right = interval.right.map_or(0, |cut| self.errors_at(cut)[1]);
        let dropped = left + right + self.gap >= b;
        marks.add_if(dropped && interval.left.is_none() && interval.right.is_none(), Mark::HopelessAtOnce);
        marks.add_if(dropped && interval.left.is_some() && interval.right.is_none(), Mark::HopelessByLeft);
        marks.add_if(dropped && interval.left.is_none() && interval.right.is_some(), Mark::HopelessByRight);
        marks.add_if(dropped && interval.left.is_some() && interval.right.is_some(), Mark::HopelessByBoth);
        dropped
    }

    /// "s a remembered cut's error plus gap"; by how much it is at or above B, if it is
    fn excess(&self, cut: usize, b: usize, marks: &mut Marks) -> Option<usize> {
        let errors = self.errors_at(cut);
        let excess = (errors[0] + errors[1] + self.gap).checked_sub(b);
        marks.add_if(excess.is_none(), Mark::BelowB);
        excess
    }

    /// Step 2. None: the interval is dropped.
    pub fn shrunk(&self, interval: &Interval, b: usize, marks: &mut Marks) -> Option<Interval> {
        if !self.small {
            return Some(*interval);
        }
        let mut i = *interval;
        // "past the highest tried cut with left error 0, short of the lowest with right error 0 (never below number 0)"
        i.first = self.left_zero.map_or(i.first, |zero| i.first.max(zero + 1));
        i.last = self.right_zero.map_or(i.last, |zero| i.last.min(zero.saturating_sub(1)));
        marks.add_if(i.first > interval.first, Mark::PastLeftZero);
        marks.add_if(i.last < interval.last, Mark::ShortOfRightZero);
        if i.first > i.last {
            marks.add(Mark::EmptyByZeros);
            return None;
        }
        self.start_by_distance(&mut i, b, marks);
        if i.first > i.last {
            marks.add(Mark::EmptyByLeft);
            return None;
        }
        self.end_by_distance(i, b, marks)
    }

    /// "from the left one, start at the first cut whose place is at least its place + s − B + 1"
    fn start_by_distance(&self, i: &mut Interval, b: usize, marks: &mut Marks) {
        let Some(cut) = i.left else { return };
        let Some(excess) = self.excess(cut, b, marks) else { return };
        let least = self.places[cut] + excess + 1;
        let start = self.first_cut(0, |place| place >= least);
        marks.add_if(start > i.first, Mark::StartMoved);
        marks.add_if(start < i.first, Mark::StartNotOutwards);
        i.first = i.first.max(start);
    }

    /// "from the right one, let x be its place − (s − B + 1), not below 0; drop the interval if x is below its first cut's place, else end at the
    /// first cut placed above x, if that lies inside"
    fn end_by_distance(&self, mut i: Interval, b: usize, marks: &mut Marks) -> Option<Interval> {
        let Some(cut) = i.right else { return Some(i) };
        let Some(excess) = self.excess(cut, b, marks) else { return Some(i) };
        let x = self.places[cut].saturating_sub(excess + 1);
        if x < self.places[i.first] {
            marks.add(Mark::EmptyByRight);
            return None;
        }
        let end = self.first_cut(0, |place| place > x);
        marks.add_if(end < i.last, Mark::EndMoved);
        marks.add_if(end > i.last, Mark::EndNotOutwards);
        i.last = i.last.min(end);
        Some(i)
    }

    /// The first cut from `from` on that passes; the list's length if none does.
    fn first_cut(&self, from: usize, passes: impl Fn(usize) -> bool) -> usize {
        (from..self.places.len()).find(|&k| passes(self.places[k])).unwrap_or(self.places.len())
    }

    /// Step 5: the intervals to queue, the upper part first.
    pub fn parts(&self, interval: &Interval, cut: usize, b: usize, marks: &mut Marks) -> Vec<Interval> {
        if interval.first == interval.last {
            marks.add(Mark::OneCut);
            return Vec::new();
        }
        let errors = self.errors_at(cut);
        let d = (errors[0] + errors[1]).saturating_sub(b) + self.gap;
        let upper = Interval { first: self.upper_start(cut, d, marks), left: Some(cut), ..*interval };
        let lower = Interval { last: self.lower_end(interval.first, cut, d, marks), right: Some(cut), ..*interval };
        marks.add_if(upper.first > upper.last, Mark::UpperEmpty);
        marks.add_if(lower.first > lower.last, Mark::LowerEmpty);
        [upper, lower].into_iter().filter(|part| part.first <= part.last).collect()
    }

    /// Where the upper part starts; anything past the interval's end is an empty part.
    pub fn upper_start(&self, cut: usize, d: usize, marks: &mut Marks) -> usize {
        if !self.small {
            marks.add(Mark::PartsUnpruned);
            return cut + 1;
        }
        if d == 0 {
            marks.add(Mark::NoDistance);
            return cut + 1;
        }
        let past = self.left_zero.map_or(cut + 1, |zero| (cut + 1).max(zero + 1));
        marks.add_if(past > cut + 1, Mark::UpperPastZero);
        let least = self.places[cut] + d + 1;
        let start = self.first_cut(past, |place| place >= least);
        marks.add_if(start > past, Mark::UpperMoved);
        start
    }

    /// Where the lower part ends.
    pub fn lower_end(&self, first: usize, cut: usize, d: usize, marks: &mut Marks) -> usize {
        if !self.small {
            marks.add_if(cut == 0, Mark::LowerStaysZero);
            return cut.saturating_sub(1);
        }
        if d == 0 {
            return cut;
        }
        let x = self.places[cut].saturating_sub(d + 1);
        if x < self.places[first] {
            marks.add(Mark::LowerBeforeFirst);
            return first.saturating_sub(1);
        }
        let nearest = cut.saturating_sub(1);
        let end = self.right_zero.map_or(nearest, |zero| nearest.min(zero.saturating_sub(1)));
        marks.add_if(end < nearest, Mark::LowerShortOfZero);
        self.sought_above(first, end, x, marks)
    }

    /// "the first cut placed above x, sought from the interval's first cut to [end], or one past that end if none; if that end isn't above the
    /// first cut, sought to the list's end"
    fn sought_above(&self, first: usize, end: usize, x: usize, marks: &mut Marks) -> usize {
        marks.add_if(end <= first, Mark::LowerWidened);
        let end = if end > first { end } else { self.places.len() - 1 };
        let found = (first..=end).find(|&k| self.places[k] > x);
        marks.add_if(found.is_none(), Mark::LowerOnePast);
        marks.add_if(found.is_some_and(|k| k < end), Mark::LowerFound);
        found.unwrap_or(end + 1)
    }
}
