//! The printed tables: a heading before the first row that is wanted, then the rows.

use crate::timing::Measured;

/// The rows whose names contain a word, which may be empty.
pub struct Rows {
    word: String,
    heading: String,
}

impl Rows {
    pub fn with(word: String) -> Rows {
        Rows { word, heading: String::new() }
    }

    /// Begins a table of what its rows are named after, with one more column for their size.
    pub fn table(&mut self, of: &str, size: &str) {
        self.heading = format!(
            "\n{of:<46} {size:>6} {:>9} {:>9}   {:>6} {:>6} {:>6}\n",
            "archive", "twin", "least", "middle", "most"
        );
    }

    /// Whether the row is wanted; the first one of a table prints its heading.
    pub fn want(&mut self, name: &str) -> bool {
        let wanted = name.contains(&self.word);
        if wanted {
            print!("{}", std::mem::take(&mut self.heading));
        }
        wanted
    }
}

pub fn print_row(name: &str, size: usize, measured: &Measured) {
    let Measured { left, right, ratios } = measured;
    let (least, middle, greatest) = (ratios[0], ratios[ratios.len() / 2], ratios[ratios.len() - 1]);
    println!("{name:<46} {size:>6} {:>9.2} {:>9.2}   {least:>6.2} {middle:>6.2} {greatest:>6.2}", left[0], right[0]);
}
