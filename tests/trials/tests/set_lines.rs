//! The calls that set a line hold what they promise, and the reference's setter and reader agree.

use lines::line_of_text;
use reference::read_line;
use std::collections::HashMap;
use trials::all;
use trials::set_lines::{
    lines_come_back, set_by_reference, set_families, set_lines_are_read, SetCall, SetFamily, SetTally, BLANK, NEGATIVE,
    NUMBER,
};

/// Debug builds look at a share of the batches, so that a plain `cargo test` stays quick.
const SHARE: u64 = if cfg!(debug_assertions) { 20 } else { 1 };

fn families() -> impl Iterator<Item = SetFamily> {
    set_families().into_iter().map(|family| family.thinned(SHARE))
}

#[test]
fn every_answer_comes_up_often_enough() {
    let mut whole = SetTally::default();
    println!("{}", SetTally::heading());
    for family in families() {
        let mut tally = SetTally::default();
        for batch in 0..family.batches {
            family.batch(batch).iter().for_each(|call| tally.count(call, &set_by_reference(call)));
        }
        println!("{} {}", tally.row(), family.name);
        whole.add(&tally);
    }
    println!("{} all {} calls", whole.row(), whole.total());
    assert!(whole.total() * SHARE >= 150_000, "{} calls", whole.total());
    assert_eq!(whole.rare(), Vec::<&str>::new());
}

#[test]
fn every_word_is_set() {
    let mut set = HashMap::new();
    let mut families = set_families();
    let (turn, right) = (families.pop().expect("TURN lines come last"), families.swap_remove(0));
    for call in (0..right.batches).flat_map(|batch| right.batch(batch)) {
        let after = set_by_reference(&call);
        assert!(matches!(after.number, 0 | 18), "{call}: {}", after.number);
        *set.entry(call.word).or_insert(0) += u64::from(after.number == 0);
    }
    for call in (0..turn.batches).flat_map(|batch| turn.batch(batch)) {
        if set_by_reference(&call).number == 0 {
            *set.entry(call.word).or_insert(0) += 1;
        }
    }
    assert_eq!(set.len(), 17);
    assert!(set.values().all(|&times| times >= 500), "{set:?}");
}

/// A share, since `compare` tries the proved setter on all of them.
#[test]
fn lines_that_are_read_come_back() {
    for family in all() {
        if let Err(difference) = lines_come_back(&family.thinned(10 * SHARE), &set_by_reference) {
            panic!("first is what is due: {difference}");
        }
    }
}

#[test]
fn lines_that_are_set_are_read() {
    for family in families() {
        let set = set_lines_are_read(&family, &set_by_reference).unwrap();
        println!("{set} lines set, {}", family.name);
    }
}

/// The line that the call would set, where its columns have room for it and a reader could see the bytes of its word.
fn laid_out(call: &SetCall) -> Option<[u8; 40]> {
    let mut fields: [String; 6] = Default::default();
    for (at, text) in fields.iter_mut().enumerate() {
        *text = match call.kinds[at] {
            BLANK => String::new(),
            NUMBER => format!("{}", call.numbers[at]),
            NEGATIVE => format!("-{}", call.numbers[at]),
            _ => return None,
        };
    }
    let printable = call.word.len() == 4 && call.word.iter().all(|byte| (32..=126).contains(byte));
    let room = fields.iter().zip([4, 4, 4, 4, 4, 15]).all(|(text, columns)| text.len() <= columns);
    let word = std::str::from_utf8(&call.word).ok()?;
    (printable && room).then(|| line_of_text(word, &fields))
}

#[test]
fn the_setter_refuses_what_the_reader_refuses() {
    let mut compared = 0;
    for family in families() {
        for call in (0..family.batches).flat_map(|batch| family.batch(batch)) {
            let Some(line) = laid_out(&call) else { continue };
            let set = set_by_reference(&call).number;
            let refused = if matches!(set, 0 | 18) { None } else { Some(set) };
            assert_eq!(read_line(&line).err(), refused, "{call}");
            compared += 1;
        }
    }
    assert!(compared * SHARE >= 50_000, "{compared} calls");
}
