//! What a search answers. Thresholds are held as bits, so that two answers are equal only if they are so to the bit.

#[derive(Clone, Copy, Debug, PartialEq, Eq)]
pub enum Side {
    Leaf { label: usize, error: usize },
    Split { column: usize, threshold: u64, labels: [usize; 2], errors: [usize; 2] },
}

impl Side {
    pub fn error(&self) -> usize {
        match self {
            Side::Leaf { error, .. } => *error,
            Side::Split { errors, .. } => errors[0] + errors[1],
        }
    }
}

#[derive(Clone, Copy, Debug, PartialEq, Eq)]
pub struct Tree {
    pub column: usize,
    pub threshold: u64,
    pub sides: [Side; 2],
}

#[derive(Clone, Copy, Debug, PartialEq, Eq)]
pub enum Answer {
    TurnedBack { number: u8, place: usize },
    Kept { error: usize, tried: usize },
    Found { error: usize, tree: Tree, tried: usize },
}
