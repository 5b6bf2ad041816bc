//! A checker or a reader of claim lines that is wrong on purpose about TURN lines is found out.

mod found;

use found::found;
use lines::{listing, LINE};
use reference::refusals::{BAD_ORDER, ENDS_IN_CLAIM, OUT_OF_LIMITS, UNKNOWN_WORD};
use reference::{check, read_line, Answer, Line};
use trials::all;
use trials::claim_lines::{compare_parts, listings, part_of_reference, Part, PartDifference};
use trials::shrink::is_claim;

const LOOPS: &str = "loops that count down";
const ANY_LINE: &str = "TURN on any line";
const FIELDS: &str = "fields of TURN";
const MOST_STRIPES: usize = 8;
const MOST_POINTS: u64 = 512;

fn is_turn(line: &[u8]) -> bool {
    line.len() == LINE && matches!(read_line(line), Ok(Line::Turn(_)))
}

/// Whether a TURN line is the first.
fn begins_with_turn(listing: &[u8]) -> bool {
    listing.chunks(LINE).next().is_some_and(is_turn)
}

/// The answer for the listing with another first line.
fn with_first(text: &[u8], first: &str) -> Answer {
    check(&[listing(first), text[LINE..].to_vec()].concat())
}

fn numbers(part: &str, wrong: &dyn Fn(&[u8]) -> Answer) -> (u64, u64) {
    let difference = found(part, wrong);
    (difference.left.answer.number, difference.right.answer.number)
}

#[test]
fn a_word_that_is_not_known_is_found() {
    let wrong = |text: &[u8]| match begins_with_turn(text) {
        true => Answer { number: UNKNOWN_WORD, place: 1, second: 0, points: 0 },
        false => check(text),
    };
    assert_eq!(numbers(LOOPS, &wrong).1, UNKNOWN_WORD);
}

/// A TURN line among other lines is skipped.
#[test]
fn turn_on_every_line_is_found() {
    let wrong = |text: &[u8]| match check(text) {
        answer if answer.number != BAD_ORDER => answer,
        _ => check(&text.chunks(LINE).filter(|line| !is_turn(line)).collect::<Vec<_>>().concat()),
    };
    assert_eq!(numbers(ANY_LINE, &wrong).0, BAD_ORDER);
}

#[test]
fn turn_behind_another_one_is_found() {
    let wrong = |text: &[u8]| match check(text) {
        answer if answer.number == BAD_ORDER && answer.place == 2 && begins_with_turn(text) => {
            let again = check(&text[LINE..]);
            Answer { place: again.place + u64::from(again.number != 0), ..again }
        }
        answer => answer,
    };
    assert_eq!(numbers(ANY_LINE, &wrong).0, BAD_ORDER);
}

#[test]
fn turn_that_is_the_first_leas_line_is_found() {
    let as_claim = |text: &[u8]| match begins_with_turn(text) {
        true => with_first(text, "LEAS 0 _ _ _ _ 0"),
        false => check(text),
    };
    assert_eq!(numbers(ANY_LINE, &as_claim).1, BAD_ORDER);
}

/// A routine of 512 points under a TURN line passes. It is not made smaller, which would take long.
#[test]
fn turn_that_counts_among_the_points_is_found() {
    let family = all().into_iter().find(|family| family.name == "loops of 512 and 513 points").expect("it exists");
    let mut texts = (0..family.batches).flat_map(|batch| family.batch(batch));
    assert!(texts.any(|text| begins_with_turn(&text) && check(&text).points == MOST_POINTS));
}

#[test]
fn turn_that_counts_among_the_stripes_is_found() {
    let wrong = |text: &[u8]| {
        let claims: Vec<&[u8]> = text.chunks(LINE).take_while(|line| is_claim(line)).collect();
        let stripes: Vec<usize> = (0..claims.len()).filter(|&at| claims[at].starts_with(b"STRP")).collect();
        match check(text) {
            answer if answer.number == 0 && begins_with_turn(text) && stripes.len() == MOST_STRIPES => {
                Answer { number: BAD_ORDER, place: stripes[MOST_STRIPES - 1] as u64 + 1, second: 0, points: 0 }
            }
            answer => answer,
        }
    };
    let difference = found(ANY_LINE, &wrong);
    assert_eq!(difference.listing.len(), (1 + MOST_STRIPES + 1) * LINE);
}

#[test]
fn turn_at_the_end_that_is_no_claim_is_found() {
    let wrong = |text: &[u8]| match check(text) {
        answer if answer.number == ENDS_IN_CLAIM && text.len() == LINE && begins_with_turn(text) => {
            Answer { number: 0, place: 0, second: 0, points: 0 }
        }
        answer => answer,
    };
    assert_eq!(found(ANY_LINE, &wrong).listing, listing("TURN 0"));
}

/// The sizes of the tables as well as registers, and 6 before 5.
#[test]
fn limits_of_the_register_are_found() {
    let any_variable = |text: &[u8]| match check(text) {
        answer if answer.number == OUT_OF_LIMITS && answer.place == 1 && text.starts_with(b"TURN  16") => {
            with_first(text, "TURN 0")
        }
        answer => answer,
    };
    assert_eq!(numbers(FIELDS, &any_variable).0, OUT_OF_LIMITS);
    let order_first = |text: &[u8]| match check(text) {
        answer if answer.number == OUT_OF_LIMITS && text[(answer.place as usize - 1) * LINE..].starts_with(b"TURN") => {
            let number = if answer.place > 1 { BAD_ORDER } else { answer.number };
            Answer { number, ..answer }
        }
        answer => answer,
    };
    assert_eq!(numbers(ANY_LINE, &order_first), (OUT_OF_LIMITS, BAD_ORDER));
}

/// The first difference between the reference and a wrong reader of claim lines.
fn part_found(part: &str, wrong: &dyn Fn(&[u8], u64) -> Part) -> Box<PartDifference> {
    let family = listings().into_iter().find(|family| family.name.contains(part)).expect("the family exists");
    let difference = compare_parts(&family, &part_of_reference, wrong).expect_err("the planted difference is found");
    println!("{difference}");
    difference
}

#[test]
fn claim_lines_without_turn_are_found() {
    let wrong = |text: &[u8], point: u64| {
        let part = part_of_reference(text, point);
        let begins = part.number == 0 && part.length > 0 && part.offset == 0 && begins_with_turn(text);
        let less = if begins { LINE as u64 } else { 0 };
        Part { offset: part.offset + less, length: part.length - less, ..part }
    };
    assert_eq!(part_found(LOOPS, &wrong).point, 0);
    // an offset that is right where nothing else is claimed
    let empty = |text: &[u8], point: u64| match part_of_reference(text, point) {
        part if part.number == 0 && part.length == LINE as u64 && part.offset == 0 && begins_with_turn(text) => {
            Part { length: 0, ..part }
        }
        part => part,
    };
    assert_eq!(part_found("random blocks", &empty).left.length, LINE as u64);
}
