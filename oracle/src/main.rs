//! The oracle: the Rust original, a model of document 01, and the proved port where it is linked, on the same sheets.
mod answer;
mod ask;
mod compare;
mod damage;
mod draw;
mod halves;
mod listing;
mod merging;
mod model;
mod original;
mod palette;
mod plain;
mod port;
mod random;
mod record;
mod sheet;
mod small;
mod speed;
mod table;

use std::process::ExitCode;

const USAGE: &str = "run [--sheets N] [--seed S] [--tiny] | ask [--model] [--merged] [--mistakes] [--least] FILE | bytes FILE
  | table | merging | record PROGRAM SEARCHES | speed [search|prepare|whole] [--runs K] [--seed S]";

/// The number after a flag.
fn number(args: &[String], flag: &str, otherwise: u64) -> Result<u64, String> {
    match args.iter().position(|word| word == flag) {
        None => Ok(otherwise),
        Some(at) => args.get(at + 1).and_then(|word| word.parse().ok()).ok_or(format!("{flag} wants a number")),
    }
}

fn run(args: &[String]) -> Result<bool, String> {
    let plan = compare::Plan {
        sheets: number(args, "--sheets", compare::DEFAULT_SHEETS)?,
        seed: number(args, "--seed", compare::DEFAULT_SEED)?,
        tiny: args.iter().any(|word| word == "--tiny"),
    };
    Ok(compare::run(&plan))
}

fn speed(args: &[String]) -> Result<bool, String> {
    let runs = number(args, "--runs", speed::DEFAULT_RUNS)?;
    let seed = number(args, "--seed", compare::DEFAULT_SEED)?;
    let work = match args.first().map(String::as_str) {
        Some("prepare") => speed::Work::Prepare,
        Some("whole") => speed::Work::Whole,
        _ => speed::Work::Search,
    };
    speed::table(work, runs, seed)?;
    Ok(true)
}

fn command(args: &[String]) -> Result<bool, String> {
    match args.first().map(String::as_str) {
        Some("run") => run(&args[1..]),
        Some("ask") => ask::ask(&args[1..]),
        Some("bytes") => ask::bytes(&args[1..]),
        Some("table") => Ok(table::run()),
        Some("merging") => {
            merging::run();
            Ok(true)
        }
        Some("speed") => speed(&args[1..]),
        Some("record") => match &args[1..] {
            [program, searches] => record::all(program.as_ref(), searches.as_ref()),
            _ => Err("record PROGRAM SEARCHES".into()),
        },
        _ => Err(format!("usage: {USAGE}")),
    }
}

fn main() -> ExitCode {
    let args: Vec<String> = std::env::args().skip(1).collect();
    match command(&args) {
        Ok(true) => ExitCode::SUCCESS,
        Ok(false) => ExitCode::FAILURE,
        Err(message) => {
            eprintln!("oracle: {message}");
            ExitCode::from(2)
        }
    }
}
