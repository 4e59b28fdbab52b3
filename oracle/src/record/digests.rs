//! What the original answered about a list, as one number.
use crate::model::marks::{Marks, ALL};

pub const MOST_PLACE: usize = 8;
/// No cut, where a byte holds a cut number.
pub const NONE: u8 = 255;
/// How long a list's record is, in bytes.
pub const SIZE: usize = 16;

pub fn byte(cut: Option<usize>) -> u8 {
    cut.map_or(NONE, |cut| cut as u8)
}

pub struct Tally {
    cases: u64,
    digest: u64,
    /// How often each branch of the model was taken.
    taken: [u64; 64],
    /// How often an empty upper part has another start in the model.
    pub renamed: u64,
}

impl Tally {
    /// One more case, whose answer is four bytes: xorshift with the shifts 13, 7 and 17.
    pub fn told(&mut self, answer: [u8; 4]) {
        self.cases += 1;
        self.digest ^= u64::from(u32::from_le_bytes(answer));
        self.digest ^= self.digest << 13;
        self.digest ^= self.digest >> 7;
        self.digest ^= self.digest << 17;
    }

    pub fn count(&mut self, marks: &Marks) {
        let mut left = marks.0;
        while left != 0 {
            self.taken[left.trailing_zeros() as usize] += 1;
            left &= left - 1;
        }
    }
}

/// The places of a list as one byte: bit k stands for place k + 1.
fn places(mask: u8) -> Vec<usize> {
    (0..MOST_PLACE).filter(|k| mask >> k & 1 == 1).map(|k| k + 1).collect()
}

/// For each list the number of its cases and their digest.
pub fn every_list(name: &str, ask: impl Fn(&[usize], &mut Tally)) -> Vec<u8> {
    let (mut out, mut cases) = (Vec::new(), 0);
    let mut tally = Tally { cases: 0, digest: 0, taken: [0; 64], renamed: 0 };
    for mask in 0..=u8::MAX {
        (tally.cases, tally.digest) = (0, 1);
        ask(&places(mask), &mut tally);
        out.extend(tally.cases.to_le_bytes());
        out.extend(tally.digest.to_le_bytes());
        cases += tally.cases;
    }
    println!("{name}: {cases} cases");
    for mark in ALL.iter().filter(|mark| tally.taken[**mark as usize] > 0) {
        println!("{name}: {:>9} {mark:?}", tally.taken[*mark as usize]);
    }
    if tally.renamed > 0 {
        println!("{name}: {:>9} with another start of an empty upper part in the model", tally.renamed);
    }
    out
}
