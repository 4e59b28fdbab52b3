//! One sheet asked of the oracle: `ask` prints the listing of a sheet's bytes, `bytes` writes the bytes of a sheet written by hand.
use crate::answer::Answer;
use crate::model::marks::Marks;
use crate::model::{self, judge, least};
use crate::original::{self, Ids};
use crate::sheet::{Sheet, MOST_ROWS, SCRATCH_PER_ROW};
use crate::{listing, plain};
use std::fs;
use std::io::{stdin, stdout, Read, Write};

/// The bytes of a named file, or of standard input for `-`.
fn input(args: &[String]) -> Result<Vec<u8>, String> {
    let name = args.iter().find(|word| !word.starts_with("--")).ok_or("no file is named")?;
    let mut bytes = Vec::new();
    match name.as_str() {
        "-" => stdin().read_to_end(&mut bytes).map(|_| bytes),
        _ => fs::read(name),
    }
    .map_err(|error| format!("{name}: {error}"))
}

fn answer(sheet: &Sheet, has: &dyn Fn(&str) -> bool) -> Option<Answer> {
    if has("--model") {
        return Some(model::search(sheet, SCRATCH_PER_ROW * MOST_ROWS, &mut Marks::default()));
    }
    original::search(sheet, if has("--merged") { Ids::Merged } else { Ids::ByEquality })
}

pub fn ask(args: &[String]) -> Result<bool, String> {
    let has = |flag: &str| args.iter().any(|word| word == flag);
    std::panic::set_hook(Box::new(|panic| eprintln!("{panic}")));
    let sheet = match listing::read(&input(args)?) {
        Ok(sheet) => sheet,
        Err(refusal) => {
            print!("{}", listing::refused(refusal));
            return Ok(true);
        }
    };
    let Some(answer) = answer(&sheet, &has) else {
        println!("PANICS");
        return Ok(true);
    };
    print!("{}", listing::text(&answer));
    match answer {
        Answer::Found { tree, .. } if has("--mistakes") => println!("mistakes={}", judge::mistakes(&sheet, &tree)),
        _ => (),
    }
    match least::error(&sheet) {
        Some(error) if has("--least") => println!("least={error}"),
        _ => (),
    }
    Ok(true)
}

pub fn bytes(args: &[String]) -> Result<bool, String> {
    let text = String::from_utf8(input(args)?).map_err(|_| "the sheet is no text")?;
    let sheet = plain::parse(&text)?;
    stdout().write_all(&listing::bytes(&sheet)).map_err(|error| error.to_string())?;
    Ok(true)
}
