//! Searches document 01's worked example from Rust: four rows of one column, two labels. Prints the answer as the finder does.

/// The archive's functions, and safe calls of the two that this program needs.
mod finder {
    extern "C" {
        fn finder_prepare(
            numbers: *const u32,
            numbers_length: usize,
            values: *const f64,
            values_length: usize,
            order: *mut u16,
            order_length: usize,
            cuts: *mut u16,
            cuts_length: usize,
            counts: *mut u16,
            counts_length: usize,
            answer: *mut u64,
            answer_length: usize,
        );
        fn finder_search(
            numbers: *const u32,
            numbers_length: usize,
            values: *const f64,
            values_length: usize,
            labels: *const u8,
            labels_length: usize,
            order: *const u16,
            order_length: usize,
            cuts: *const u16,
            cuts_length: usize,
            counts: *const u16,
            counts_length: usize,
            scratch: *mut u32,
            scratch_length: usize,
            answer: *mut u64,
            answer_length: usize,
        );
    }

    const SCRATCH_PER_ROW: usize = 8;

    /// What a search goes by, besides the rows.
    pub struct Terms {
        pub support: u32,
        pub gap: u32,
        pub error: u32,
        pub bound: u32,
    }

    /// Each column's rows in order, and its cuts.
    struct Lists {
        order: Vec<u16>,
        cuts: Vec<u16>,
        counts: Vec<u16>,
    }

    fn prepare(rows: usize, columns: usize, values: &[f64]) -> Result<Lists, (u64, u64)> {
        let mut lists = Lists { order: vec![0; rows * columns], cuts: vec![0; rows * columns], counts: vec![0; columns] };
        let numbers = [rows as u32, columns as u32];
        let mut answer = [0; 3];
        // SAFETY: each pointer goes with the length of the slice that it comes from, and no two of the slices overlap.
        unsafe {
            finder_prepare(
                numbers.as_ptr(),
                numbers.len(),
                values.as_ptr(),
                values.len(),
                lists.order.as_mut_ptr(),
                lists.order.len(),
                lists.cuts.as_mut_ptr(),
                lists.cuts.len(),
                lists.counts.as_mut_ptr(),
                lists.counts.len(),
                answer.as_mut_ptr(),
                answer.len(),
            );
        }
        match answer {
            [0, number, place] => Err((number, place)),
            _ => Ok(lists),
        }
    }

    /// The answer's words (include/finder.h). Values lie column by column; as many rows as labels.
    pub fn search(values: &[f64], labels: &[u8], label_count: u32, terms: &Terms) -> [u64; 19] {
        let rows = labels.len();
        let columns = values.len() / rows.max(1);
        let lists = match prepare(rows, columns, values) {
            Ok(lists) => lists,
            Err((number, place)) => {
                let mut turned_back = [0; 19];
                turned_back[1] = number;
                turned_back[2] = place;
                return turned_back;
            }
        };
        let numbers = [rows as u32, columns as u32, label_count, terms.support, terms.gap, terms.error, terms.bound];
        let mut scratch = vec![0; SCRATCH_PER_ROW * rows];
        let mut answer = [0; 19];
        // SAFETY: as above.
        unsafe {
            finder_search(
                numbers.as_ptr(),
                numbers.len(),
                values.as_ptr(),
                values.len(),
                labels.as_ptr(),
                labels.len(),
                lists.order.as_ptr(),
                lists.order.len(),
                lists.cuts.as_ptr(),
                lists.cuts.len(),
                lists.counts.as_ptr(),
                lists.counts.len(),
                scratch.as_mut_ptr(),
                scratch.len(),
                answer.as_mut_ptr(),
                answer.len(),
            );
        }
        answer
    }
}

fn side(mark: char, words: &[u64]) -> String {
    match words[0] {
        0 => format!("{mark} LEAF label={} error={}", words[1], words[2]),
        _ => format!("{mark} SPLIT column={} at={:016X} left={}/{} right={}/{}", words[1], words[2], words[3], words[5], words[4], words[6]),
    }
}

fn listing(answer: &[u64; 19]) -> String {
    match answer[0] {
        0 => format!("REFUSED {} place={}", answer[1], answer[2]),
        1 => format!("KEPT error={} tried={}", answer[1], answer[2]),
        _ => format!(
            "FOUND error={} column={} at={:016X} tried={}\n{}\n{}",
            answer[1],
            answer[3],
            answer[4],
            answer[2],
            side('L', &answer[5..12]),
            side('R', &answer[12..])
        ),
    }
}

fn main() {
    let terms = finder::Terms { support: 1, gap: 0, error: 2, bound: 1_000_000 };
    println!("{}", listing(&finder::search(&[1.0, 2.0, 3.0, 4.0], &[0, 1, 0, 1], 2, &terms)));
}
