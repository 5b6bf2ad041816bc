//! Readers of columns that are wrong in one thing are found by the listings of one line: the reference reads what such a
//! reader would have made of the columns.

mod found;

use found::found;
use lines::LINE;
use reference::{check, Answer};

const SHORT: &str = "four columns";
const LONG: &str = "fifteen columns";
const LONG_AT: usize = 24;

/// The reference's answer, with each field that holds digits after spaces read by another rule.
fn read_by(listing: &[u8], rule: fn(&[u8]) -> u64, fields: &[(usize, usize)]) -> Answer {
    let mut changed = listing.to_vec();
    for line in changed.chunks_mut(LINE).filter(|line| line.len() == LINE) {
        for &(at, columns) in fields {
            let field = &mut line[at..at + columns];
            let digits: Vec<u8> = field.iter().copied().skip_while(|byte| *byte == b' ').collect();
            if is_number(&digits) {
                let number = format!("{:>columns$}", rule(&digits));
                field.copy_from_slice(&number.as_bytes()[..columns]);
            }
        }
    }
    check(&changed)
}

fn is_number(digits: &[u8]) -> bool {
    digits.iter().all(u8::is_ascii_digit) && matches!(digits, [_] | [b'1'..=b'9', ..])
}

fn weighed_by(weight: u64, digits: &[u8]) -> u64 {
    digits.iter().fold(0, |number, digit| number * weight + u64::from(digit - b'0'))
}

fn short(listing: &[u8], rule: fn(&[u8]) -> u64) -> Answer {
    read_by(listing, rule, &[4, 8, 12, 16, 20].map(|at| (at, 4)))
}

fn long(listing: &[u8], rule: fn(&[u8]) -> u64) -> Answer {
    read_by(listing, rule, &[(LONG_AT, 15)])
}

/// What is planted below differs from the reference in the rule alone.
#[test]
fn the_right_rule_makes_no_difference() {
    let right = |digits: &[u8]| weighed_by(10, digits);
    for family in trials::of_columns() {
        for listing in family.batch(0) {
            assert_eq!((check(&listing), check(&listing)), (short(&listing, right), long(&listing, right)));
        }
    }
}

#[test]
fn a_digit_weighed_by_eight_is_found() {
    found(SHORT, &|listing| short(listing, |digits| weighed_by(8, digits)));
    found(LONG, &|listing| long(listing, |digits| weighed_by(8, digits)));
}

#[test]
fn a_last_column_left_out_is_found() {
    found(SHORT, &|listing| short(listing, |digits| weighed_by(10, &digits[..digits.len() - 1])));
    found(LONG, &|listing| long(listing, |digits| weighed_by(10, &digits[..digits.len() - 1])));
}

#[test]
fn a_number_that_leaves_its_bits_is_found() {
    found(SHORT, &|listing| short(listing, |digits| weighed_by(10, digits) % (1 << 8)));
    found(LONG, &|listing| long(listing, |digits| weighed_by(10, digits) % (1 << 16)));
}
