//! Setting every line of the longest listing.

use crate::listings::longest;
use crate::rows::{print_row, Rows};
use crate::timing::ratio;
use lines::LINE;
use reference::read_fields;
use std::cell::RefCell;
use trials::set_lines::{BLANK, NEGATIVE, NUMBER};

/// A line as a call takes it.
struct Prepared {
    word: [u8; 4],
    kinds: [u8; 6],
    numbers: [u64; 6],
}

fn prepared(line: &[u8; LINE]) -> Prepared {
    let (word, numbers) = read_fields(line).expect("the line is right");
    let kind = |number: Option<i128>| match number {
        None => BLANK,
        Some(number) if number < 0 => NEGATIVE,
        Some(_) => NUMBER,
    };
    Prepared {
        word: word.try_into().expect("a word has four bytes"),
        kinds: numbers.map(kind),
        numbers: numbers.map(|number| number.map_or(0, |number| number.unsigned_abs() as u64)),
    }
}

pub fn print_set_lines(rows: &mut Rows) {
    let name = "setting 1,638 lines";
    rows.table("set lines", "lines");
    if rows.want(name) {
        print_setting(name, &longest("COPY 0 0"));
    }
}

/// The two are timed after both have made the same listing of other bytes.
fn print_setting(name: &str, listing: &[u8]) {
    let lines: Vec<Prepared> = listing.as_chunks::<LINE>().0.iter().map(prepared).collect();
    let lent = RefCell::new(vec![0; listing.len()]);
    let by_archive = || {
        let lent = &mut lent.borrow_mut();
        let set = |(at, line): (usize, &Prepared)| {
            archive::set_line_of_kinds(lent, at + 1, &line.word, &line.kinds, &line.numbers)[0]
        };
        lines.iter().enumerate().map(set).sum()
    };
    let by_twin = || {
        let lent = &mut lent.borrow_mut();
        let set = |(at, line): (usize, &Prepared)| {
            twin::set_line(&line.word, &line.kinds, &line.numbers, at + 1, lent).number
        };
        lines.iter().enumerate().map(set).sum()
    };
    for (who, call) in [("the archive", &by_archive as &dyn Fn() -> u64), ("the twin", &by_twin)] {
        assert_eq!(call(), 0, "{name}: {who}");
        assert!(lent.replace(vec![0; listing.len()]) == listing, "{name}: {who}");
    }
    print_row(name, lines.len(), &ratio(&by_archive, &by_twin));
}
