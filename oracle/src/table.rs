//! Document 01's table T and run cases, asked of the original and of the model.
use crate::model::marks::Marks;
use crate::model::{self, prepare};
use crate::original::{self, Ids};
use crate::sheet::{Sheet, SCRATCH_PER_ROW};
use crate::{listing, plain};

/// T1 to T4: the bits of lower, upper and threshold.
const THRESHOLDS: [[u64; 3]; 4] = [
    [0x3FF0000000000000, 0x4000000000000000, 0x3FF8000000000000],
    [0x3FF0000000000001, 0x3FF0000000000002, 0x3FF0000000000001],
    [0x3FF0000000000000, 0x3FF0000000000001, 0x3FF0000000000000],
    [1, 2, 1],
];

/// A sheet of the folder `sheets` and its listing.
const LISTED: [(&str, &str, &str); 11] = [
    (
        "T5",
        include_str!("../sheets/t5.txt"),
        "FOUND error=0 column=0 at=4004000000000000 tried=1\n\
         L SPLIT column=0 at=3FF8000000000000 left=0/0 right=1/0\n\
         R SPLIT column=0 at=400C000000000000 left=0/0 right=1/0\n",
    ),
    ("T6", include_str!("../sheets/t6.txt"), "KEPT error=2 tried=0\n"),
    ("T7", include_str!("../sheets/t7.txt"), "KEPT error=2 tried=0\n"),
    ("T8", include_str!("../sheets/t8.txt"), "KEPT error=2 tried=1\n"),
    (
        "T8, error 3",
        include_str!("../sheets/t8-error-3.txt"),
        "FOUND error=2 column=0 at=4004000000000000 tried=1\nL LEAF label=0 error=1\nR LEAF label=0 error=1\n",
    ),
    ("T9", include_str!("../sheets/t9.txt"), "KEPT error=2 tried=0\n"),
    (
        "T10",
        include_str!("../sheets/t10.txt"),
        "FOUND error=0 column=0 at=3FF8000000000000 tried=1\nL LEAF label=0 error=0\nR LEAF label=1 error=0\n",
    ),
    ("one row", include_str!("../sheets/one-row.txt"), "KEPT error=1 tried=0\n"),
    ("a constant column", include_str!("../sheets/constant-column.txt"), "KEPT error=1 tried=0\n"),
    (
        "10^12",
        include_str!("../sheets/largest.txt"),
        "FOUND error=0 column=0 at=425D1A94A2002000 tried=1\nL LEAF label=0 error=0\nR LEAF label=1 error=0\n",
    ),
    ("the next double", include_str!("../sheets/past-largest.txt"), "REFUSED 5 place=2\n"),
];

/// The listing of a sheet with its own lists, by the model, and by the original where the sheet is not refused.
fn answers(sheet: &Sheet) -> Vec<String> {
    let model = listing::text(&model::search(sheet, SCRATCH_PER_ROW * sheet.numbers.rows, &mut Marks::default()));
    let original =
        (!model.starts_with("REFUSED")).then(|| original::search(sheet, Ids::ByEquality).map_or("PANICS".to_string(), |a| listing::text(&a)));
    std::iter::once(model).chain(original).collect()
}

fn case(name: &str, expected: &str, answers: &[String]) -> bool {
    let same = answers.iter().all(|answer| answer == expected);
    println!("{} {name}", if same { "ok     " } else { "DIFFERS" });
    if !same {
        println!("expected\n{expected}answered\n{}", answers.concat());
    }
    same
}

/// Order 1, 0 for values 1, 2; and a missing cut.
fn refused_lists() -> Vec<(&'static str, &'static str, Sheet)> {
    let mut sheet = plain::parse(include_str!("../sheets/t10.txt")).expect("a sheet");
    prepare::prepare(&mut sheet);
    let mut turned = sheet.clone();
    turned.order = vec![1, 0];
    sheet.counts[0] = 0;
    vec![("order 1, 0 for values 1, 2", "REFUSED 8 place=1\n", turned), ("a missing cut", "REFUSED 9 place=0\n", sheet)]
}

/// Whether all is as document 01 says.
pub fn run() -> bool {
    let mut right = Vec::new();
    for (number, [lower, upper, threshold]) in THRESHOLDS.iter().enumerate() {
        let between = [model::threshold_between, contree::algorithms::shared::threshold_between];
        let answers = between.map(|between| format!("{:016X}\n", between(f64::from_bits(*lower), f64::from_bits(*upper)).to_bits()));
        right.push(case(&format!("T{}", number + 1), &format!("{threshold:016X}\n"), &answers));
    }
    for (name, text, expected) in LISTED {
        let mut sheet = plain::parse(text).expect("a sheet");
        prepare::prepare(&mut sheet);
        right.push(case(name, expected, &answers(&sheet)));
    }
    for (name, expected, sheet) in refused_lists() {
        right.push(case(name, expected, &answers(&sheet)));
    }
    println!("{} cases, {} differ", right.len(), right.iter().filter(|same| !**same).count());
    right.iter().all(|same| *same)
}
