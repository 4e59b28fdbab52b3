//! Recorded sheets: first those whose search takes a branch that is still rare among the chosen ones, then those whose set of branches is new.
use crate::listing;
use crate::model::marks::{Marks, ALL};
use crate::model::{self, prepare};
use crate::original::{self, Ids};
use crate::sheet::Sheet;
use crate::{random, small};
use std::collections::HashSet;

const SHEETS: usize = 2_400;
const MOST_BYTES: usize = 1_200_000;
/// A branch is rare until this many chosen sheets take it.
const ENOUGH: u64 = 60;
/// Numbers looked at for rare branches, of small and of drawn sheets each.
const LOOKED_AT: u64 = 60_000;
const MOST_CELLS: usize = 160;
/// One drawn sheet in so many may be larger, up to this many cells.
const LARGER_ONE_IN: u64 = 400;
const LARGER_CELLS: usize = 400;

#[derive(Clone, Copy, PartialEq, Eq)]
enum Wanted {
    Rare,
    New,
}

struct Chosen {
    bytes: Vec<u8>,
    count: usize,
    taken: [u64; 64],
    met: HashSet<u64>,
}

/// Lengths of both, then the sheet, then the answer's text.
pub fn record(out: &mut Vec<u8>, sheet: &[u8], answer: &str) {
    out.extend((sheet.len() as u16).to_le_bytes());
    out.extend((answer.len() as u16).to_le_bytes());
    out.extend(sheet);
    out.extend(answer.as_bytes());
}

impl Chosen {
    /// Takes the sheet if it is wanted. Its rows are sorted anew, ties by row number, since bytes do not carry an order list.
    fn offer(&mut self, mut sheet: Sheet, wanted: Wanted) {
        prepare::prepare(&mut sheet);
        let mut marks = Marks::default();
        let model = model::search_checked(&sheet, &mut marks);
        let wanted = match wanted {
            Wanted::Rare => ALL.iter().any(|mark| marks.has(*mark) && self.taken[*mark as usize] < ENOUGH),
            Wanted::New => !self.met.contains(&marks.0),
        };
        let bytes = listing::bytes(&sheet);
        if !wanted || self.count == SHEETS || self.bytes.len() + bytes.len() > MOST_BYTES {
            return;
        }
        let answer = original::search(&sheet, Ids::ByEquality).expect("the original does not panic");
        assert_eq!(answer, model);
        record(&mut self.bytes, &bytes, &listing::text(&answer));
        self.count += 1;
        self.met.insert(marks.0);
        for mark in ALL {
            self.taken[*mark as usize] += u64::from(marks.has(*mark));
        }
    }

    fn look(&mut self, seed: u64, numbers: u64, wanted: Wanted) {
        for number in 0..numbers {
            self.offer(small::sheet(small::walk(number, seed, small::total(5))), wanted);
            let sheet = random::sheet(seed, number);
            let cells = sheet.numbers.rows * sheet.numbers.columns;
            if cells <= MOST_CELLS || number % LARGER_ONE_IN == 0 && cells <= LARGER_CELLS {
                self.offer(sheet, wanted);
            }
        }
    }
}

/// The chosen sheets with the original's answers, and how many.
pub fn chosen(seed: u64) -> (Vec<u8>, usize) {
    let mut chosen = Chosen { bytes: Vec::new(), count: 0, taken: [0; 64], met: HashSet::new() };
    chosen.look(seed, LOOKED_AT, Wanted::Rare);
    let rare = chosen.count;
    chosen.look(seed, LOOKED_AT, Wanted::New);
    for mark in ALL {
        println!("sheets.bin: {:>6} {mark:?}", chosen.taken[*mark as usize]);
    }
    println!("sheets.bin: {rare} sheets for rare branches, {} different sets of branches in all", chosen.met.len());
    (chosen.bytes, chosen.count)
}
