//! The original, and the port where it is linked, timed on the same prepared sheets in one process, call by call in turn; the best of several
//! calls counts. Never under an emulator: both are compiled for the machine at hand. The preparer is timed beside the original's own preparation and
//! beside Rust's `sort_by` of the same rows by the same keys, which finds no cuts and looks at no limits. The whole is what a caller waits for: each
//! one's own preparation and then its search.
use crate::answer::Answer;
use crate::draw::Draw;
use crate::halves;
use crate::model::prepare;
use crate::original::{self, Ids};
use crate::port;
use crate::sheet::{Numbers, Sheet, MOST_COLUMNS, MOST_ERROR, MOST_ROWS};
use contree::data::view::DataView;
use std::hint::black_box;
use std::time::Instant;

const ROWS: [usize; 6] = [4, 16, 64, 256, 1_024, 4_096];
const COLUMNS: [usize; 3] = [1, 4, 16];
const LABELS: [usize; 3] = [2, 8, 32];
const SUPPORTS: [usize; 2] = [1, 20];
/// Rows that the scans of a search may visit: a column has fewer distinct values where it would be more.
const VISITS: usize = 1 << 25;
const FEWEST_DISTINCT: usize = 8;
/// One label in so many of a structured sheet is drawn freely.
const NOISE: usize = 20;
pub const DEFAULT_RUNS: u64 = 5;

/// What is timed.
#[derive(Clone, Copy, PartialEq, Eq)]
pub enum Work {
    Search,
    Prepare,
    Whole,
}

#[derive(Clone, Copy)]
struct Shape {
    rows: usize,
    columns: usize,
    labels: usize,
    support: usize,
    structured: bool,
}

/// One finder's call on one sheet: the seconds it took.
type Timed<'a> = Box<dyn FnMut() -> f64 + 'a>;

/// Every kind of sheet on which some cut leaves `support` rows on each side.
fn shapes() -> Vec<Shape> {
    let mut shapes = Vec::new();
    for rows in ROWS {
        for columns in COLUMNS {
            for labels in LABELS {
                for support in SUPPORTS.into_iter().filter(|support| 2 * support <= rows) {
                    shapes.extend([false, true].map(|structured| Shape { rows, columns, labels, support, structured }));
                }
            }
        }
    }
    shapes
}

/// The values of a sheet for the preparer: how each column lies before it is sorted.
#[derive(Clone, Copy)]
enum Lie {
    Random,
    Ascending,
    Descending,
    Equal,
    /// So many values, drawn.
    Values(usize),
    /// Every other row drawn, the rest with one value.
    HalfEqual,
    /// Built so that the port gives its sort by parts up and sorts by halves.
    ByHalves,
}

impl Lie {
    /// The rows that it wants at least.
    fn wants(self) -> usize {
        match self {
            Lie::ByHalves => halves::FEWEST_ROWS,
            _ => 1,
        }
    }
}

const LIES: [(Lie, &str); 9] = [
    (Lie::Random, "random"),
    (Lie::Ascending, "ascending"),
    (Lie::Descending, "descending"),
    (Lie::Equal, "all equal"),
    (Lie::Values(2), "2 values"),
    (Lie::Values(8), "8 values"),
    (Lie::Values(64), "64 values"),
    (Lie::HalfEqual, "half equal"),
    (Lie::ByHalves, "by halves"),
];
/// The inner rows of a column that is sorted by halves have drawn values, of so many: next to none are equal.
const INNER: usize = 1 << 32;
const PREPARED_SHAPES: [(usize, usize); 3] = [(MOST_ROWS, MOST_COLUMNS), (1_024, 4), (64, 4)];

fn laid_column(lie: Lie, rows: usize, draw: &mut Draw) -> Vec<f64> {
    let free = |draw: &mut Draw| draw.next() as f64 / u64::MAX as f64;
    let all = 0..rows;
    match lie {
        Lie::Random => all.map(|_| free(draw)).collect(),
        Lie::Ascending => all.map(|row| row as f64).collect(),
        Lie::Descending => all.map(|row| (rows - row) as f64).collect(),
        Lie::Equal => vec![1.0; rows],
        Lie::Values(count) => all.map(|_| draw.below(count) as f64).collect(),
        Lie::HalfEqual => all.map(|row| if row % 2 == 0 { 0.5 } else { free(draw) }).collect(),
        Lie::ByHalves => halves::column(draw, rows, INNER).into_iter().map(|rank| rank as f64).collect(),
    }
}

fn laid(lie: Lie, rows: usize, columns: usize, seed: u64) -> Sheet {
    let mut draw = Draw::new(seed);
    let values = (0..columns).flat_map(|_| laid_column(lie, rows, &mut draw)).collect();
    let numbers = Numbers { rows, columns, labels: 1, ..Numbers::default() };
    let mut sheet = Sheet { numbers, values, codes: vec![0; rows], ..Sheet::default() };
    prepare::prepare(&mut sheet);
    sheet
}

/// Each column's rows by `sort_by`, value first and then row.
fn sort_by(sheet: &Sheet, order: &mut [u16]) {
    let rows = sheet.numbers.rows;
    for (order, values) in order.chunks_exact_mut(rows).zip(sheet.values.chunks_exact(rows)) {
        for (row, place) in order.iter_mut().enumerate() {
            *place = row as u16;
        }
        order.sort_by(|&a, &b| values[a as usize].partial_cmp(&values[b as usize]).expect("finite").then(a.cmp(&b)));
    }
}

fn prepared_line(lie: Lie, name: &str, (rows, columns): (usize, usize), runs: u64, seed: u64) {
    let sheet = laid(lie, rows, columns, seed);
    let mut order = vec![0; rows * columns];
    let sorted: Timed<'_> = Box::new(|| seconds(|| sort_by(&sheet, &mut order)));
    let mut finders = vec![Box::new(|| original::prepare_seconds(&sheet)) as Timed<'_>, sorted];
    finders.extend(port::timed(Work::Prepare, &sheet));
    let times = best(runs, &mut finders);
    print!("{rows:>5} {columns:>7} {name:<10} {:>12.4} {:>12.4}", times[0] * 1e3, times[1] * 1e3);
    match times.get(2) {
        Some(port) => println!(" {:>12.4} {:>13.2} {:>12.2}", port * 1e3, port / times[0], port / times[1]),
        None => println!(" {:>12} {:>13} {:>12}", "-", "-", "-"),
    }
}

fn prepared_table(runs: u64, seed: u64) {
    println!("preparer: milliseconds, best of {runs}, seed {seed}, {}; {}", std::env::consts::ARCH, port::compared());
    println!(
        "{:>5} {:>7} {:<10} {:>12} {:>12} {:>12} {:>13} {:>12}",
        "rows", "columns", "kind", "original", "sort_by", "port", "port/original", "port/sort_by"
    );
    for shape in PREPARED_SHAPES {
        for (lie, name) in LIES.into_iter().filter(|(lie, _)| lie.wants() <= shape.0) {
            prepared_line(lie, name, shape, runs, seed);
        }
    }
}

fn sheet(shape: &Shape, seed: u64) -> Sheet {
    let Shape { rows, columns, labels, support, structured } = *shape;
    let mut draw = Draw::new(seed);
    let distinct = (VISITS / (rows * columns * columns)).clamp(FEWEST_DISTINCT.min(rows), rows);
    let values: Vec<f64> = (0..rows * columns).map(|_| draw.below(distinct) as f64 / 8.0).collect();
    let middle = distinct as f64 / 16.0;
    let code = |row: usize, draw: &mut Draw| {
        let above = |column: usize| usize::from(values[column % columns * rows + row] > middle);
        let named = (2 * above(0) + above(1)) * labels / 4;
        (if structured && !draw.one_in(NOISE) { named } else { draw.below(labels) }) as u8
    };
    let codes = (0..rows).map(|row| code(row, &mut draw)).collect();
    let numbers = Numbers { rows, columns, labels, support, gap: 0, error: MOST_ERROR, bound: MOST_ERROR };
    let mut sheet = Sheet { numbers, values, codes, ..Sheet::default() };
    prepare::prepare(&mut sheet);
    sheet
}

/// Seconds of one call.
pub fn seconds<T>(call: impl FnOnce() -> T) -> f64 {
    let start = Instant::now();
    black_box(call());
    start.elapsed().as_secs_f64()
}

/// The best of each over the runs, taken in turn.
fn best(runs: u64, finders: &mut [Timed<'_>]) -> Vec<f64> {
    let mut least = vec![f64::INFINITY; finders.len()];
    for _ in 0..runs {
        for (least, finder) in least.iter_mut().zip(finders.iter_mut()) {
            *least = least.min(finder());
        }
    }
    least
}

/// The original's preparation merges values closer than `f64::EPSILON` and puts tied rows in an order of its own. So the whole of each has to answer
/// what `fit` does on the sheet as it stands, tried count and all, or the times are not those of one search.
fn same_whole(sheet: &Sheet, answer: &Answer) -> Result<(), String> {
    let original = original::search(sheet, Ids::Merged).ok_or("the original panics")?;
    let port = port::whole(sheet).transpose()?;
    for whole in [Some(original), port].into_iter().flatten() {
        if whole != *answer {
            return Err(format!("{:?}: not the same search\n{answer:?}\n{whole:?}", sheet.numbers));
        }
    }
    Ok(())
}

fn line(work: Work, shape: &Shape, runs: u64, seed: u64) -> Result<(), String> {
    let sheet = sheet(shape, seed);
    let dataset = original::dataset(&sheet, Ids::ByEquality);
    let view = DataView::root(&dataset, false);
    let answer = original::fit(&sheet, &view);
    let original: Timed<'_> = match work {
        Work::Whole => Box::new(|| original::whole_seconds(&sheet)),
        _ => Box::new(|| seconds(|| original::fit(&sheet, &view))),
    };
    if work == Work::Whole {
        same_whole(&sheet, &answer)?;
    }
    let mut finders = vec![original];
    finders.extend(port::timed(work, &sheet));
    print_line(shape, &answer, &best(runs, &mut finders));
    Ok(())
}

fn print_line(shape: &Shape, answer: &Answer, times: &[f64]) {
    let tried = match answer {
        Answer::Kept { tried, .. } | Answer::Found { tried, .. } => *tried,
        Answer::TurnedBack { .. } => 0,
    };
    let kind = if shape.structured { "structured" } else { "random" };
    print!("{:>5} {:>7} {:>6} {:>7} {kind:<10} {tried:>6}", shape.rows, shape.columns, shape.labels, shape.support);
    print!(" {:>12.4}", times[0] * 1e3);
    match times.get(1) {
        Some(port) => println!(" {:>12.4} {:>6.2}", port * 1e3, port / times[0]),
        None => println!(" {:>12} {:>6}", "-", "-"),
    }
}

fn searched_table(work: Work, runs: u64, seed: u64) -> Result<(), String> {
    let name = if work == Work::Whole { "preparation and search" } else { "search" };
    println!("{name}: milliseconds, best of {runs}, seed {seed}, {}; {}", std::env::consts::ARCH, port::compared());
    println!(
        "{:>5} {:>7} {:>6} {:>7} {:<10} {:>6} {:>12} {:>12} {:>6}",
        "rows", "columns", "labels", "support", "kind", "tried", "original", "port", "ratio"
    );
    shapes().iter().try_for_each(|shape| line(work, shape, runs, seed))
}

pub fn table(work: Work, runs: u64, seed: u64) -> Result<(), String> {
    match work {
        Work::Prepare => prepared_table(runs, seed),
        Work::Search | Work::Whole => searched_table(work, runs, seed)?,
    }
    Ok(())
}
