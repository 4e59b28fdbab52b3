//! A sheet as document 01 lends it: its numbers and its five lists.

pub const MOST_ROWS: usize = 4_096;
pub const MOST_COLUMNS: usize = 16;
pub const MOST_LABELS: usize = 32;
pub const MOST_SUPPORT: usize = 4_096;
/// Gap, starting error and upper bound; as a bound it serves as "no bound".
pub const MOST_ERROR: usize = 1_000_000;
pub const LARGEST: f64 = 1_000_000_000_000.0;
pub const SCRATCH_PER_ROW: usize = 8;

#[derive(Clone, Copy, Debug, Default, PartialEq, Eq)]
pub struct Numbers {
    pub rows: usize,
    pub columns: usize,
    pub labels: usize,
    pub support: usize,
    pub gap: usize,
    pub error: usize,
    pub bound: usize,
}

#[derive(Clone, Debug, Default)]
pub struct Sheet {
    pub numbers: Numbers,
    /// Value of row r in column c at c·rows+r.
    pub values: Vec<f64>,
    /// The label code of each row.
    pub codes: Vec<u8>,
    /// At c·rows+i the row at sorted place i.
    pub order: Vec<u16>,
    /// Column c's cuts from c·rows on.
    pub cuts: Vec<u16>,
    /// How many cuts each column has.
    pub counts: Vec<u16>,
}

impl Sheet {
    pub fn value(&self, column: usize, row: usize) -> f64 {
        self.values[column * self.numbers.rows + row]
    }

    pub fn code(&self, row: usize) -> usize {
        self.codes[row] as usize
    }

    pub fn row_at(&self, column: usize, place: usize) -> usize {
        self.order[column * self.numbers.rows + place] as usize
    }

    pub fn value_at(&self, column: usize, place: usize) -> f64 {
        self.value(column, self.row_at(column, place))
    }

    /// The places of a column's cuts, ascending.
    pub fn places(&self, column: usize) -> Vec<usize> {
        let from = column * self.numbers.rows;
        let count = self.counts[column] as usize;
        self.cuts[from..from + count].iter().map(|&place| place as usize).collect()
    }
}
