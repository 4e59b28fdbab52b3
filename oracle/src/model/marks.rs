//! Which branches of document 01's prose a sheet takes. The recorded sheets are chosen so that each is taken.

macro_rules! marks {
    ($($name:ident),* $(,)?) => {
        #[derive(Clone, Copy, Debug, PartialEq, Eq)]
        pub enum Mark { $($name),* }
        pub const ALL: &[Mark] = &[$(Mark::$name),*];
    };
}

marks! {
    // the columns
    NoFeasible, StopAtGap,
    // step 1
    HopelessAtOnce, HopelessByLeft, HopelessByRight, HopelessByBoth,
    // step 2
    PastLeftZero, ShortOfRightZero, EmptyByZeros, BelowB, StartMoved, StartNotOutwards, EmptyByLeft, EmptyByRight, EndMoved, EndNotOutwards,
    // steps 3 and 4
    CutZero, LaterCut, Fallback, NotLower, Lower, LowerZero, ZeroNotLower, CutZeroUnpruned,
    // step 5
    OneCut, PartsUnpruned, NoDistance, UpperPastZero, UpperMoved, UpperEmpty, LowerStaysZero, LowerBeforeFirst, LowerShortOfZero, LowerWidened,
    LowerOnePast, LowerFound, LowerEmpty,
    // the scan
    LeafTie, EmptyLabel, EqualValue, Skipped, Unsupported, Taken, SkipSet, ClosedPure, ClosedPureUnsupported, ClosedBySkip, EndBothClosed,
    EndBySkips, BothPerfect, StaysLeaf, BecomesSplit,
}

#[derive(Clone, Copy, Debug, Default, PartialEq, Eq)]
pub struct Marks(pub u64);

impl Marks {
    pub fn add(&mut self, mark: Mark) {
        self.0 |= 1 << mark as u64;
    }

    pub fn add_if(&mut self, holds: bool, mark: Mark) {
        if holds {
            self.add(mark);
        }
    }

    pub fn has(&self, mark: Mark) -> bool {
        self.0 >> mark as u64 & 1 == 1
    }

    /// A try of a cut with this error, where the current error was `current`.
    pub fn note_try(&mut self, cut: usize, error: usize, current: usize, small: bool) {
        self.add(if cut == 0 { Mark::CutZero } else { Mark::LaterCut });
        self.add_if(cut == 0 && !small, Mark::CutZeroUnpruned);
        self.add(if error < current { Mark::Lower } else { Mark::NotLower });
        self.add_if(error < current && error == 0, Mark::LowerZero);
        self.add_if(error >= current && error == 0, Mark::ZeroNotLower);
    }
}
