//! Writes the recorded answers: `recorded/README.md` says what each file has.
pub mod digests;
pub mod lookups;
pub mod pruning;
pub mod refused;
pub mod sheets;

use std::fs;
use std::path::Path;

pub const SEED: u64 = 41;

fn write(folder: &Path, name: &str, bytes: &[u8], records: usize) -> Result<(), String> {
    fs::write(folder.join(name), bytes).map_err(|error| format!("{name}: {error}"))?;
    println!("{name}: {records} records, {} bytes", bytes.len());
    Ok(())
}

/// Writes the digests of the pruner's functions as the input of the program in the first folder, and the whole searches into the second.
pub fn all(program: &Path, searches: &Path) -> Result<bool, String> {
    std::panic::set_hook(Box::new(|_| ()));
    lookups::tell_panics();
    let steps = [lookups::every(), pruning::shrinking(), pruning::neighbourhood()].concat();
    write(program, "stdin", &steps, steps.len() / digests::SIZE)?;
    let (bytes, records) = sheets::chosen(SEED);
    write(searches, "sheets.bin", &bytes, records)?;
    let (bytes, records) = refused::refused(SEED);
    write(searches, "refused.bin", &bytes, records)?;
    Ok(true)
}
