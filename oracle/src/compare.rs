//! The differential run: the original and the model, and the port where it is linked, on the same sheets in one process.
use crate::answer::Answer;
use crate::damage;
use crate::draw::Draw;
use crate::model::marks::{Marks, ALL};
use crate::model::{self, check, judge, least, prepare};
use crate::original::{self, Ids};
use crate::sheet::{Sheet, SCRATCH_PER_ROW};
use crate::{halves, listing, port, random, small};
use std::time::{Duration, Instant};

const PROGRESS: Duration = Duration::from_secs(10);
const MOST_SHOWN: usize = 5;
/// One sheet in so many of a run is a damaged copy.
const DAMAGED_ONE_IN: u64 = 10;
/// Cells of a sheet up to which every tree is tried.
const MOST_LEAST: usize = 24;
pub const DEFAULT_SHEETS: u64 = 1_000_000;
pub const DEFAULT_SEED: u64 = 9;

pub struct Plan {
    pub sheets: u64,
    pub seed: u64,
    /// Every sheet of up to three rows, and nothing else.
    pub tiny: bool,
}

/// What a sheet's answers were, or what is wrong with them.
fn compared(sheet: &Sheet, marks: &mut Marks) -> Result<Answer, String> {
    let scratch = SCRATCH_PER_ROW * sheet.numbers.rows;
    if unprepared(sheet).or(check::turned_back(sheet, scratch)).is_some() {
        return Err("the model turns the sheet back".to_string());
    }
    let model = model::search_checked(sheet, marks);
    let original = original::search(sheet, Ids::ByEquality).ok_or("the original panics")?;
    same("model", &original, &model)?;
    if let Some(port) = port::search(sheet, scratch) {
        same("port", &original, &port?)?;
    }
    checked(sheet, scratch)?;
    prepared(sheet)?;
    own_errors(sheet, &original)?;
    if sheet.numbers.rows * sheet.numbers.columns <= MOST_LEAST {
        near_least(sheet, &original)?;
    }
    Ok(original)
}

/// The port's input check against the model's.
fn checked(sheet: &Sheet, scratch: usize) -> Result<(), String> {
    same_turn("check", check::turned_back(sheet, scratch), port::check(sheet, scratch))
}

/// The port's preparer on the sheet's values, with lists as long as the sheet's, against the model's: its answer and every word.
fn prepared(sheet: &Sheet) -> Result<(), String> {
    let turned = unprepared(sheet);
    let wanted = turned.is_none().then(|| {
        let mut wanted = sheet.clone();
        prepare::prepare(&mut wanted);
        wanted
    });
    same_turn("preparer", turned, port::prepare(sheet, wanted.as_ref()))
}

fn unprepared(sheet: &Sheet) -> Option<(u8, usize)> {
    prepare::turned_back(&sheet.numbers, &sheet.values, [sheet.order.len(), sheet.cuts.len(), sheet.counts.len()])
}

fn same_turn(name: &str, model: Option<(u8, usize)>, port: Option<port::Turned>) -> Result<(), String> {
    let Some(port) = port else { return Ok(()) };
    let port = port?;
    match model == port {
        true => Ok(()),
        false => Err(format!("the port's {name} says {port:?}, the model's {model:?}")),
    }
}

/// Never below the least error of any tree; with support ≤ 1, the smaller of error and bound is above it by the gap at most (demand 3).
fn near_least(sheet: &Sheet, answer: &Answer) -> Result<(), String> {
    let (Answer::Kept { error, .. } | Answer::Found { error, .. }) = answer else { return Ok(()) };
    let n = sheet.numbers;
    let Some(least) = least::error(sheet) else { return Ok(()) };
    let lowest = *error >= least.min(n.error);
    let near = n.support > 1 || *error.min(&n.bound) <= least + n.gap;
    match lowest && near {
        true => Ok(()),
        false => Err(format!("{}the least error of any tree is {least}", listing::text(answer))),
    }
}

fn same(name: &str, original: &Answer, other: &Answer) -> Result<(), String> {
    match original == other {
        true => Ok(()),
        false => Err(format!("expected\n{}{name}\n{}", listing::text(original), listing::text(other))),
    }
}

/// A found tree's error is that of its sides, and its mistakes on the rows are as many.
fn own_errors(sheet: &Sheet, answer: &Answer) -> Result<(), String> {
    let Answer::Found { error, tree, .. } = answer else { return Ok(()) };
    let sides = tree.sides[0].error() + tree.sides[1].error();
    let mistakes = judge::mistakes(sheet, tree);
    match sides == *error && mistakes == *error {
        true => Ok(()),
        false => Err(format!("{}its sides say {sides}, its rows {mistakes}", listing::text(answer))),
    }
}

/// A damaged copy: the port against the model; the original too, where the damage does no harm.
fn compared_damaged(sheet: &Sheet, scratch: usize) -> Result<Answer, String> {
    checked(sheet, scratch)?;
    prepared(sheet)?;
    let model = model::search(sheet, scratch, &mut Marks::default());
    if !matches!(model, Answer::TurnedBack { .. }) {
        same("model", &original::search(sheet, Ids::ByEquality).ok_or("the original panics")?, &model)?;
    }
    if let Some(port) = port::search(sheet, scratch) {
        same("port", &model, &port?)?;
    }
    Ok(model)
}

struct Run {
    done: u64,
    differ: u64,
    found: u64,
    turned_back: [u64; 10],
    unprepared: [u64; 10],
    /// Columns that the port's preparer sorts by halves.
    by_halves: u64,
    taken: [u64; 64],
    started: Instant,
    shown: Instant,
}

impl Run {
    fn new() -> Run {
        let now = Instant::now();
        Run { done: 0, differ: 0, found: 0, turned_back: [0; 10], unprepared: [0; 10], by_halves: 0, taken: [0; 64], started: now, shown: now }
    }

    fn sheet(&mut self, sheet: &Sheet, name: &dyn Fn() -> String) {
        let mut marks = Marks::default();
        let outcome = compared(sheet, &mut marks);
        for mark in ALL {
            self.taken[*mark as usize] += u64::from(marks.has(*mark));
        }
        let columns = sheet.values.chunks_exact(sheet.numbers.rows);
        self.by_halves += columns.filter(|column| halves::sorted_by_halves(column)).count() as u64;
        self.count(outcome, sheet, name);
    }

    fn count(&mut self, outcome: Result<Answer, String>, sheet: &Sheet, name: &dyn Fn() -> String) {
        match outcome {
            Ok(Answer::Found { .. }) => self.found += 1,
            Ok(Answer::Kept { .. }) => (),
            Ok(Answer::TurnedBack { number, .. }) => self.turned_back[number as usize] += 1,
            Err(fault) => {
                self.differ += 1;
                if self.differ as usize <= MOST_SHOWN {
                    println!("DIFFERS {}\n{:?}\n{fault}", name(), sheet.numbers);
                }
            }
        }
        self.done += 1;
        if self.shown.elapsed() >= PROGRESS {
            self.shown = Instant::now();
            eprintln!("{} sheets, {} differ, {:.0} s", self.done, self.differ, self.started.elapsed().as_secs_f64());
        }
    }

    fn tiny(&mut self) {
        for number in 0..small::total(3) {
            self.sheet(&small::sheet(number), &|| format!("small sheet {number}"));
        }
    }

    fn drawn(&mut self, plan: &Plan) {
        let damaged = plan.sheets / DAMAGED_ONE_IN;
        let walked = (plan.sheets - damaged) / 2;
        for turn in 0..walked {
            let number = small::walk(turn, plan.seed, small::total(5));
            self.sheet(&small::sheet(number), &|| format!("small sheet {number}"));
        }
        for number in 0..plan.sheets - damaged - walked {
            self.sheet(&random::sheet_of_run(plan.seed, number), &|| format!("random sheet {number} of seed {}", plan.seed));
        }
        for number in 0..damaged {
            let mut draw = Draw::at(plan.seed + 1, number);
            let (sheet, scratch) = damage::damaged(&mut draw, &random::sheet(plan.seed, number));
            let outcome = compared_damaged(&sheet, scratch);
            if let Some((number, _)) = unprepared(&sheet) {
                self.unprepared[number as usize] += 1;
            }
            self.count(outcome, &sheet, &|| format!("damaged sheet {number} of seed {}", plan.seed));
        }
    }

    fn summary(&self, seed: u64) {
        for mark in ALL {
            println!("{:>10} {mark:?}", self.taken[*mark as usize]);
        }
        for (reason, times) in self.turned_back.iter().enumerate().skip(1) {
            println!("{times:>10} reason {reason}");
        }
        for (reason, times) in self.unprepared.iter().enumerate().filter(|(_, times)| **times > 0) {
            println!("{times:>10} reason {reason} of the preparer");
        }
        println!("{:>10} columns sorted by halves", self.by_halves);
        let refused: u64 = self.turned_back.iter().sum();
        let kept = self.done - self.differ - self.found - refused;
        println!("{} found, {kept} kept, {refused} turned back, seed {seed}, {:.0} s", self.found, self.started.elapsed().as_secs_f64());
        println!("{}", port::compared());
        println!("{} sheets, {} differ", self.done, self.differ);
    }
}

/// Whether nothing differed.
pub fn run(plan: &Plan) -> bool {
    std::panic::set_hook(Box::new(|_| ()));
    let mut run = Run::new();
    if plan.tiny {
        run.tiny();
    } else {
        run.drawn(plan);
    }
    run.summary(plan.seed);
    run.differ == 0
}
