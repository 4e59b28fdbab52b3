//! The proved library's C functions, and what they owe of the words that they are lent.
#[cfg(feature = "search")]
use crate::answer::{Answer, Side, Tree};
use crate::port::Turned;
use crate::sheet::Sheet;
#[cfg(any(feature = "search", feature = "check"))]
use crate::sheet::SCRATCH_PER_ROW;

#[cfg(feature = "search")]
const WORDS: usize = 19;
#[cfg(feature = "search")]
const SIDE_WORDS: usize = 7;
/// The words that the check and the preparer answer.
const TURNED_WORDS: usize = 3;
/// What scratch holds before a call: a call that leaves a word alone leaves this.
const FILL: u32 = 0xA5A5_5A5A;
const PAST: usize = 5;
/// The highest reason after which scratch is untouched.
const UNTOUCHED: u8 = 4;

/// Declares functions that take a sheet: its numbers, its lists, scratch and an answer.
macro_rules! of_a_sheet {
    ($($(#[$feature:meta])* $name:ident),*) => {
        extern "C" {
            $($(#[$feature])*
            fn $name(
                numbers: *const u32,
                numbers_length: usize,
                values: *const f64,
                values_length: usize,
                labels: *const u8,
                labels_length: usize,
                order: *const u16,
                order_length: usize,
                cuts: *const u16,
                cuts_length: usize,
                counts: *const u16,
                counts_length: usize,
                scratch: *mut u32,
                scratch_length: usize,
                answer: *mut u64,
                answer_length: usize,
            );)*
        }
    };
}

of_a_sheet!(
    #[cfg(feature = "search")]
    finder_search,
    #[cfg(feature = "check")]
    finder_check
);

/// Calls one of them.
macro_rules! asked {
    ($function:ident, $numbers:expr, $sheet:expr, $scratch:expr, $answer:expr) => {
        // SAFETY: each pointer goes with the length of the slice that it comes from, and no two of the slices overlap.
        unsafe {
            $function(
                $numbers.as_ptr(),
                $numbers.len(),
                $sheet.values.as_ptr(),
                $sheet.values.len(),
                $sheet.codes.as_ptr(),
                $sheet.codes.len(),
                $sheet.order.as_ptr(),
                $sheet.order.len(),
                $sheet.cuts.as_ptr(),
                $sheet.cuts.len(),
                $sheet.counts.as_ptr(),
                $sheet.counts.len(),
                $scratch.as_mut_ptr(),
                $scratch.len(),
                $answer.as_mut_ptr(),
                $answer.len(),
            )
        }
    };
}

extern "C" {
    #[cfg(feature = "prepare")]
    fn finder_prepare(
        numbers: *const u32,
        numbers_length: usize,
        values: *const f64,
        values_length: usize,
        order: *mut u16,
        order_length: usize,
        cuts: *mut u16,
        cuts_length: usize,
        counts: *mut u16,
        counts_length: usize,
        answer: *mut u64,
        answer_length: usize,
    );
}

fn numbers(sheet: &Sheet) -> [u32; 7] {
    let n = sheet.numbers;
    [n.rows, n.columns, n.labels, n.support, n.gap, n.error, n.bound].map(|number| number as u32)
}

#[cfg(feature = "search")]
pub fn call(sheet: &Sheet, scratch: &mut [u32]) -> [u64; WORDS] {
    let numbers = numbers(sheet);
    let mut answer = [u64::MAX; WORDS];
    asked!(finder_search, numbers, sheet, scratch, answer);
    answer
}

#[cfg(feature = "search")]
pub fn search(sheet: &Sheet, words: usize) -> Result<Answer, String> {
    let mut scratch = vec![FILL; words + PAST];
    let answer = answer(&call(sheet, &mut scratch[..words]))?;
    let number = match answer {
        Answer::TurnedBack { number, .. } => Some(number),
        _ => None,
    };
    owed(&scratch, sheet, number)?;
    Ok(answer)
}

/// "After search reasons 1 to 4 scratch is untouched; after every other search call the first 8·rows words are 0 and the rest untouched."
#[cfg(any(feature = "search", feature = "check"))]
fn owed(scratch: &[u32], sheet: &Sheet, number: Option<u8>) -> Result<(), String> {
    let untouched = number.is_some_and(|number| number <= UNTOUCHED);
    let cleared = if untouched { 0 } else { SCRATCH_PER_ROW * sheet.numbers.rows };
    let owed = |at: usize| if at < cleared { 0 } else { FILL };
    match (0..scratch.len()).find(|&at| scratch[at] != owed(at)) {
        None => Ok(()),
        Some(at) => Err(format!("scratch word {at} is {:08X}, not {:08X}", scratch[at], owed(at))),
    }
}

/// What the words of the check or of the preparer say.
fn turned(words: &[u64; TURNED_WORDS]) -> Turned {
    match *words {
        [1, 0, 0] => Ok(None),
        [0, number, place] => Ok(Some((number as u8, place as usize))),
        _ => Err(format!("no answer {words:?}")),
    }
}

#[cfg(feature = "check")]
pub fn check(sheet: &Sheet, words: usize) -> Turned {
    let mut scratch = vec![FILL; words + PAST];
    let numbers = numbers(sheet);
    let mut answer = [u64::MAX; TURNED_WORDS];
    asked!(finder_check, numbers, sheet, scratch[..words], answer);
    let turned = turned(&answer)?;
    owed(&scratch, sheet, turned.map(|(number, _)| number))?;
    Ok(turned)
}

/// The sheet with its three lists filled: what the preparer is lent.
#[cfg(feature = "prepare")]
pub fn filled(sheet: &Sheet) -> Sheet {
    let mut lent = sheet.clone();
    for list in [&mut lent.order, &mut lent.cuts, &mut lent.counts] {
        list.fill(FILL as u16);
    }
    lent
}

#[cfg(feature = "prepare")]
pub fn call_prepare(sheet: &mut Sheet) -> [u64; TURNED_WORDS] {
    let numbers = &numbers(sheet)[..2];
    let mut answer = [u64::MAX; TURNED_WORDS];
    // SAFETY: each pointer goes with the length of the slice that it comes from, and no two of the slices overlap.
    unsafe {
        finder_prepare(
            numbers.as_ptr(),
            numbers.len(),
            sheet.values.as_ptr(),
            sheet.values.len(),
            sheet.order.as_mut_ptr(),
            sheet.order.len(),
            sheet.cuts.as_mut_ptr(),
            sheet.cuts.len(),
            sheet.counts.as_mut_ptr(),
            sheet.counts.len(),
            answer.as_mut_ptr(),
            answer.len(),
        );
    }
    answer
}

/// "A turned-back preparer writes nothing."
#[cfg(feature = "prepare")]
pub fn prepare(sheet: &Sheet, wanted: Option<&Sheet>) -> Turned {
    let before = filled(sheet);
    let mut lent = before.clone();
    let turned = turned(&call_prepare(&mut lent))?;
    let owed = wanted.unwrap_or(&before);
    match [&lent.order, &lent.cuts, &lent.counts] == [&owed.order, &owed.cuts, &owed.counts] {
        true => Ok(turned),
        false => Err("the preparer's lists are not as owed".to_string()),
    }
}

/// The preparer and then the search on what it prepared.
#[cfg(all(feature = "prepare", feature = "search"))]
pub fn call_whole(sheet: &mut Sheet, scratch: &mut [u32]) -> [u64; WORDS] {
    call_prepare(sheet);
    call(sheet, scratch)
}

#[cfg(all(feature = "prepare", feature = "search"))]
pub fn whole(sheet: &Sheet) -> Result<Answer, String> {
    let mut scratch = vec![FILL; SCRATCH_PER_ROW * sheet.numbers.rows];
    answer(&call_whole(&mut filled(sheet), &mut scratch))
}

/// The words that a case does not use are 0.
#[cfg(feature = "search")]
fn answer(words: &[u64; WORDS]) -> Result<Answer, String> {
    let number = |at: usize| words[at] as usize;
    let short = words[TURNED_WORDS..].iter().all(|&word| word == 0);
    match words[0] {
        0 if short => Ok(Answer::TurnedBack { number: words[1] as u8, place: number(2) }),
        1 if short => Ok(Answer::Kept { error: number(1), tried: number(2) }),
        2 => {
            let sides = [side(&words[5..5 + SIDE_WORDS])?, side(&words[5 + SIDE_WORDS..])?];
            Ok(Answer::Found { error: number(1), tried: number(2), tree: Tree { column: number(3), threshold: words[4], sides } })
        }
        _ => Err(format!("no answer {words:?}")),
    }
}

#[cfg(feature = "search")]
fn side(words: &[u64]) -> Result<Side, String> {
    let number = |at: usize| words[at] as usize;
    match words {
        [0, _, _, 0, 0, 0, 0] => Ok(Side::Leaf { label: number(1), error: number(2) }),
        [1, ..] => Ok(Side::Split { column: number(1), threshold: words[2], labels: [number(3), number(4)], errors: [number(5), number(6)] }),
        _ => Err(format!("no side {words:?}")),
    }
}
