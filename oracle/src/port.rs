//! The port's seam. Each of the proved library's functions is linked by a feature of its name (README.md, "The port's seam"); where one is not there,
//! there is nothing to compare, and every caller says so.
use crate::answer::Answer;
use crate::sheet::Sheet;
use crate::speed::Work;

// what only one of the functions needs stands unused where that one is not linked
#[cfg(any(feature = "search", feature = "check", feature = "prepare"))]
#[allow(dead_code, unused_macros)]
mod linked;

/// A reason's number and place, if a call turns back; or what the port did to lent words that it owed otherwise.
pub type Turned = Result<Option<(u8, usize)>, String>;

/// The port's answer with a scratch of so many words. None where it is not linked.
#[cfg(feature = "search")]
pub fn search(sheet: &Sheet, scratch: usize) -> Option<Result<Answer, String>> {
    Some(linked::search(sheet, scratch))
}

#[cfg(not(feature = "search"))]
pub fn search(_sheet: &Sheet, _scratch: usize) -> Option<Result<Answer, String>> {
    None
}

/// The port's input check with a scratch of so many words.
#[cfg(feature = "check")]
pub fn check(sheet: &Sheet, scratch: usize) -> Option<Turned> {
    Some(linked::check(sheet, scratch))
}

#[cfg(not(feature = "check"))]
pub fn check(_sheet: &Sheet, _scratch: usize) -> Option<Turned> {
    None
}

/// The port's preparer on the sheet's values, with lists as long as the sheet's. Where it does not turn back the lists are to be those of `wanted`.
#[cfg(feature = "prepare")]
pub fn prepare(sheet: &Sheet, wanted: Option<&Sheet>) -> Option<Turned> {
    Some(linked::prepare(sheet, wanted))
}

#[cfg(not(feature = "prepare"))]
pub fn prepare(_sheet: &Sheet, _wanted: Option<&Sheet>) -> Option<Turned> {
    None
}

/// The port's answer on what its own preparer made of the sheet's values.
#[cfg(all(feature = "prepare", feature = "search"))]
pub fn whole(sheet: &Sheet) -> Option<Result<Answer, String>> {
    Some(linked::whole(sheet))
}

#[cfg(not(all(feature = "prepare", feature = "search")))]
pub fn whole(_sheet: &Sheet) -> Option<Result<Answer, String>> {
    None
}

pub fn compared() -> String {
    let functions = [("search", cfg!(feature = "search")), ("check", cfg!(feature = "check")), ("prepare", cfg!(feature = "prepare"))];
    let linked: Vec<&str> = functions.iter().filter(|(_, there)| *there).map(|(name, _)| *name).collect();
    match linked.is_empty() {
        true => "compared: the original and the model; the port is not linked".to_string(),
        false => format!("compared: the original, the model and the port ({})", linked.join(", ")),
    }
}

/// The port's call on a sheet, what it is lent lent once: the seconds that it takes. None where it is not linked.
pub fn timed(work: Work, sheet: &Sheet) -> Option<Box<dyn FnMut() -> f64 + '_>> {
    match work {
        Work::Search => timed_search(sheet),
        Work::Prepare => timed_prepare(sheet),
        Work::Whole => timed_whole(sheet),
    }
}

#[cfg(feature = "search")]
fn lent_scratch(sheet: &Sheet) -> Vec<u32> {
    vec![0; crate::sheet::SCRATCH_PER_ROW * sheet.numbers.rows]
}

#[cfg(feature = "search")]
fn timed_search(sheet: &Sheet) -> Option<Box<dyn FnMut() -> f64 + '_>> {
    let mut scratch = lent_scratch(sheet);
    Some(Box::new(move || crate::speed::seconds(|| linked::call(sheet, &mut scratch))))
}

#[cfg(not(feature = "search"))]
fn timed_search(_sheet: &Sheet) -> Option<Box<dyn FnMut() -> f64 + '_>> {
    None
}

#[cfg(feature = "prepare")]
fn timed_prepare(sheet: &Sheet) -> Option<Box<dyn FnMut() -> f64 + '_>> {
    let mut lent = linked::filled(sheet);
    Some(Box::new(move || crate::speed::seconds(|| linked::call_prepare(&mut lent))))
}

#[cfg(not(feature = "prepare"))]
fn timed_prepare(_sheet: &Sheet) -> Option<Box<dyn FnMut() -> f64 + '_>> {
    None
}

#[cfg(all(feature = "prepare", feature = "search"))]
fn timed_whole(sheet: &Sheet) -> Option<Box<dyn FnMut() -> f64 + '_>> {
    let mut lent = linked::filled(sheet);
    let mut scratch = lent_scratch(sheet);
    Some(Box::new(move || crate::speed::seconds(|| linked::call_whole(&mut lent, &mut scratch))))
}

#[cfg(not(all(feature = "prepare", feature = "search")))]
fn timed_whole(_sheet: &Sheet) -> Option<Box<dyn FnMut() -> f64 + '_>> {
    None
}
