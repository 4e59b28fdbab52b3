//! The original's `support_feasible_splits`, `lower_bound` and `upper_bound` on every list of places up to 8.
use super::digests::{every_list, Tally, MOST_PLACE};
use contree::algorithms::interval_pruner::IntervalsPruner;
use contree::algorithms::support_feasible_splits;
use std::panic::catch_unwind;

/// Looked-up values, and rows: 0 to one past the highest place.
const VALUES: usize = MOST_PLACE + 2;
const SUPPORTS: usize = 6;

pub fn every() -> Vec<u8> {
    every_list("lookups", |list, tally| {
        for first in 0..=MOST_PLACE {
            for last in 0..MOST_PLACE {
                for value in 0..VALUES {
                    if first == 0 && last < SUPPORTS {
                        feasible(list, value, last, tally);
                    }
                    if first <= list.len() && last < list.len() {
                        lookups(list, first, last, value, tally);
                    }
                }
            }
        }
    })
}

fn feasible(list: &[usize], rows: usize, support: usize, tally: &mut Tally) {
    let run = support_feasible_splits(list, rows, support);
    tally.told([run.start as u8, run.end as u8, 0, 0]);
}

/// From 0 to the list's length and to a cut of the list: on others the original panics.
fn lookups(list: &[usize], first: usize, last: usize, value: usize, tally: &mut Tally) {
    let pruner = IntervalsPruner::new(list, 0, 1);
    tally.told([pruner.lower_bound(first, last, value) as u8, pruner.upper_bound(first, last, value) as u8, 0, 0]);
}

/// On which ends the original's two lookups panic: told, not recorded.
pub fn tell_panics() {
    let panics = |list: &[usize], first: usize, last: usize| {
        let list = list.to_vec();
        [true, false].map(|lower| {
            let list = list.clone();
            catch_unwind(move || {
                let pruner = IntervalsPruner::new(&list, 0, 1);
                if lower {
                    pruner.lower_bound(first, last, 1)
                } else {
                    pruner.upper_bound(first, last, 1)
                }
            })
            .is_err()
        })
    };
    println!("lookups on an empty list panic: {:?}", panics(&[], 0, 0));
    println!("lookups from one past the length of 1, 2, 3 panic: {:?}", panics(&[1, 2, 3], 4, 2));
    println!("lookups from the length of 1, 2, 3 panic: {:?}", panics(&[1, 2, 3], 3, 2));
    println!("lookups from 0 to the length of 1, 2, 3 panic: {:?}", panics(&[1, 2, 3], 0, 3));
}
