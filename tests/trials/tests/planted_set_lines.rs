//! A setter that is wrong on purpose is found out, by the comparison or by a law.

use lines::{FIELDS, LINE};
use reference::refusals::{BAD_ORDER, BAD_SHAPE, NO_SUCH_LINE, ONE_REGISTER_TWICE, OUT_OF_LIMITS, UNKNOWN_WORD};
use reference::{set_line_within, Limits, Refusal};
use trials::set_lines::{
    compare_setters, lines_come_back, set_by_reference, set_families, set_lines_are_read, SetAfter, SetCall,
    SetDifference, BLANK, NEGATIVE, NUMBER,
};

/// The first difference between the reference and a wrong setter, in the first family that shows one.
fn found(wrong: &dyn Fn(&SetCall) -> SetAfter) -> Box<SetDifference> {
    let differences = set_families().into_iter().map(|family| compare_setters(&family, &set_by_reference, wrong));
    let difference = differences.filter_map(Result::err).next().expect("the planted difference is found");
    println!("{difference}");
    difference
}

fn numbers_of(difference: &SetDifference) -> (u64, u64) {
    (difference.left.number, difference.right.number)
}

/// The offset of the line that was set.
fn start(call: &SetCall) -> usize {
    (call.line as usize - 1) * LINE
}

/// The reference with something changed in what it left, where it set the line.
fn set_then(call: &SetCall, change: &dyn Fn(&mut [u8], usize)) -> SetAfter {
    let mut after = set_by_reference(call);
    if after.number == 0 {
        change(&mut after.listing, start(call));
    }
    after
}

fn with(call: &SetCall, change: &dyn Fn(&mut SetCall)) -> SetAfter {
    let mut other = call.clone();
    change(&mut other);
    set_by_reference(&other)
}

fn line_first(call: &SetCall) -> SetAfter {
    let right = set_by_reference(call);
    let bare = with(call, &|call| (call.word, call.kinds) = (b"STOP".to_vec(), [BLANK; 6]));
    if bare.number == NO_SUCH_LINE {
        bare
    } else {
        right
    }
}

/// A number that leaves room stands one column to the left.
fn one_column_left(call: &SetCall) -> SetAfter {
    set_then(call, &|listing, start| {
        for (from, to) in FIELDS {
            let columns = &mut listing[start + from..start + to];
            if columns[0] == b' ' {
                columns.rotate_left(1);
            }
        }
    })
}

fn blank_as_0(call: &SetCall) -> SetAfter {
    set_then(call, &|listing, start| {
        for ((_, to), _) in FIELDS.iter().zip(call.kinds).filter(|(_, kind)| *kind == BLANK) {
            listing[start + to - 1] = b'0';
        }
    })
}

/// Ends the line before with a line feed.
fn neighbour_changed(call: &SetCall) -> SetAfter {
    set_then(call, &|listing, start| {
        if start > 0 {
            listing[start - 1] = b'\n';
        }
    })
}

/// Leaves the spaces of the line as they stood.
fn spaces_not_written(call: &SetCall) -> SetAfter {
    set_then(call, &|listing, start| {
        let line = &mut listing[start..start + LINE];
        for (byte, before) in line.iter_mut().zip(&call.listing[start..]).filter(|(byte, _)| **byte == b' ') {
            *byte = *before;
        }
    })
}

fn minus_on_0(call: &SetCall) -> SetAfter {
    with(call, &|call| {
        if call.word == b"STRP" && call.kinds[5] == NEGATIVE && call.numbers[5] == 0 {
            call.kinds[5] = NUMBER;
        }
    })
}

fn first_four_bytes(call: &SetCall) -> SetAfter {
    with(call, &|call| call.word.truncate(4))
}

/// 5 with place 0 where 18 holds too.
fn place_0_in_5(call: &SetCall) -> SetAfter {
    let mut after = set_by_reference(call);
    if after.number == OUT_OF_LIMITS && line_first(call).number == NO_SUCH_LINE {
        after.place = 0;
    }
    after
}

/// The reference, but where it has no such line, one that ends at this byte of the listing.
fn set_up_to(call: &SetCall, end: usize) -> SetAfter {
    let mut after = set_by_reference(call);
    if after.number == NO_SUCH_LINE && (LINE..=call.listing.len()).contains(&end) {
        let alone = with(call, &|call| (call.line, call.listing) = (1, vec![0; LINE]));
        after.listing[end - LINE..end].copy_from_slice(&alone.listing);
        after.number = 0;
    }
    after
}

/// Forty times the line modulo 2^64.
fn product_wraps(call: &SetCall) -> SetAfter {
    let (product, wraps) = (call.line as usize).overflowing_mul(LINE);
    set_up_to(call, if wraps { product } else { 0 })
}

fn one_line_more(call: &SetCall) -> SetAfter {
    set_up_to(call, if call.line == 1639 { 1639 * LINE } else { 0 })
}

/// Only the digits that have room are written.
fn digits_cut(call: &SetCall) -> SetAfter {
    with(call, &|call| call.numbers[..5].iter_mut().for_each(|number| *number %= 10_000))
}

/// 5 for a number that is too wide, also where a blank is due.
fn width_first(call: &SetCall) -> SetAfter {
    let mut after = set_by_reference(call);
    let wide = (0..5).any(|at| call.kinds[at] == NUMBER && call.numbers[at] > 9_999);
    if after.number == BAD_SHAPE && wide {
        after.number = OUT_OF_LIMITS;
    }
    after
}

/// A kind that is none taken for a number.
fn any_kind_a_number(call: &SetCall) -> SetAfter {
    with(call, &|call| call.kinds.iter_mut().for_each(|kind| *kind = if *kind > NEGATIVE { NUMBER } else { *kind }))
}

/// A line set where quotient and remainder are in one register.
fn one_register_twice(call: &SetCall) -> SetAfter {
    let refused = set_by_reference(call).number == ONE_REGISTER_TWICE;
    with(call, &|call| call.numbers[2] = if refused { (call.numbers[0] + 1) % 16 } else { call.numbers[2] })
}

/// 18 where 19 holds too.
fn line_before_registers(call: &SetCall) -> SetAfter {
    let right = set_by_reference(call);
    if right.number == ONE_REGISTER_TWICE {
        line_first(call)
    } else {
        right
    }
}

/// 19 for the same in both fields of a DIVM, whatever else is wrong by the test of this number.
fn registers_before(number: u64, call: &SetCall) -> SetAfter {
    let mut after = set_by_reference(call);
    let same = (call.kinds[0], call.numbers[0]) == (call.kinds[2], call.numbers[2]);
    if after.number == number && call.word == b"DIVM" && same {
        after.number = ONE_REGISTER_TWICE;
    }
    after
}

/// 19 for F1 and F3 of any word.
fn any_word_with_registers(call: &SetCall) -> SetAfter {
    let mut after = set_by_reference(call);
    let same = call.kinds[0] == NUMBER && call.kinds[2] == NUMBER && call.numbers[0] == call.numbers[2];
    if after.number == 0 && same {
        after = SetAfter { number: ONE_REGISTER_TWICE, place: call.line, listing: call.listing.clone() };
    }
    after
}

fn place_0_in_19(call: &SetCall) -> SetAfter {
    let mut after = set_by_reference(call);
    if after.number == ONE_REGISTER_TWICE {
        after.place = 0;
    }
    after
}

/// TURN with a variable in place of a register.
fn turn_of_a_size(call: &SetCall) -> SetAfter {
    let mut after = set_by_reference(call);
    let size = call.word == b"TURN" && call.kinds[0] == NUMBER && matches!(call.numbers[0], 16 | 17);
    if after.number == OUT_OF_LIMITS && size {
        let model = with(call, &|call| call.numbers[0] = 10);
        (after.number, after.place) = (model.number, model.place);
    }
    after
}

/// 6 for a TURN line that is not the first.
fn turn_on_line_1_alone(call: &SetCall) -> SetAfter {
    let after = set_by_reference(call);
    if after.number != 0 || call.word != b"TURN" || call.line == 1 {
        return after;
    }
    SetAfter { number: BAD_ORDER, place: call.line, listing: call.listing.clone() }
}

fn no_turn(call: &SetCall) -> SetAfter {
    with(call, &|call| {
        if call.word == b"TURN" {
            call.word = b"turn".to_vec();
        }
    })
}

/// A setter with other limits of scales and bounds.
fn within(limits: Limits, call: &SetCall) -> SetAfter {
    let mut listing = call.listing.clone();
    match set_line_within(limits, &call.word, &call.fields(), call.line, &mut listing) {
        Ok(()) => SetAfter { number: 0, place: 0, listing },
        Err(Refusal { number, place, .. }) => SetAfter { number, place, listing },
    }
}

/// Other limits for the calls of which this holds.
fn within_for(limits: Limits, which: fn(&SetCall) -> bool, call: &SetCall) -> SetAfter {
    within(if which(call) { limits } else { Limits::TODAY }, call)
}

#[test]
fn other_limits_of_scales_are_found() {
    let words: [fn(&SetCall) -> bool; 3] =
        [|call| call.word == b"STRP", |call| call.word == b"LOAD", |call| call.word == b"STOR"];
    for which in words {
        for scale in [4_096, 4_094, 255] {
            let wrong = |call: &SetCall| within_for(Limits { scale, ..Limits::TODAY }, which, call);
            let (left, right) = numbers_of(&found(&wrong));
            assert_eq!(if scale == 4_096 { left } else { right }, OUT_OF_LIMITS, "{scale}");
        }
    }
}

#[test]
fn other_limits_of_bounds_are_found() {
    let signs: [fn(&SetCall) -> bool; 2] = [|call| call.kinds[5] == NEGATIVE, |call| call.kinds[5] == NUMBER];
    let end = Limits::TODAY.bound;
    for which in signs {
        for bound in [end + 1, end - 1, Limits::EARLIER.bound] {
            let wrong = |call: &SetCall| within_for(Limits { bound, ..Limits::TODAY }, which, call);
            let (left, right) = numbers_of(&found(&wrong));
            assert_eq!(if bound > end { left } else { right }, OUT_OF_LIMITS, "{bound}");
        }
    }
}

/// 5 for what fills all columns of F6 with its minus.
#[test]
fn a_bound_taken_to_be_too_wide_is_found() {
    let wrong = |call: &SetCall| match set_by_reference(call) {
        after if after.number == 0 && call.kinds[5] == NEGATIVE && call.numbers[5] >= 10_000_000_000_000 => {
            SetAfter { number: OUT_OF_LIMITS, place: call.line, listing: call.listing.clone() }
        }
        after => after,
    };
    assert_eq!(found(&wrong).right.number, OUT_OF_LIMITS);
}

#[test]
fn a_line_looked_for_too_soon_is_found() {
    let (left, right) = numbers_of(&found(&line_first));
    assert!((UNKNOWN_WORD..=OUT_OF_LIMITS).contains(&left));
    assert_eq!(right, NO_SUCH_LINE);
}

#[test]
fn a_field_in_other_columns_is_found() {
    let difference = found(&one_column_left);
    assert_eq!(numbers_of(&difference), (0, 0));
    assert!(difference.first_byte().is_some());
    assert!(set_families().iter().any(|family| set_lines_are_read(family, &one_column_left).is_err()));
}

#[test]
fn a_blank_written_as_0_is_found() {
    let difference = found(&blank_as_0);
    assert_eq!(numbers_of(&difference), (0, 0));
    let at = difference.first_byte().expect("bytes differ");
    assert_eq!((difference.left.listing[at], difference.right.listing[at]), (b' ', b'0'));
}

#[test]
fn a_byte_of_a_neighbour_is_found() {
    let difference = found(&neighbour_changed);
    assert_eq!(difference.first_byte(), Some(start(&difference.call) - 1));
    assert!(set_families().iter().any(|family| set_lines_are_read(family, &neighbour_changed).is_err()));
}

#[test]
fn spaces_that_are_not_written_are_found() {
    assert_eq!(numbers_of(&found(&spaces_not_written)), (0, 0));
    let routines = trials::all().swap_remove(0).thinned(100);
    assert!(lines_come_back(&routines, &spaces_not_written).is_err());
}

#[test]
fn a_minus_on_0_is_found() {
    let difference = found(&minus_on_0);
    assert_eq!(numbers_of(&difference), (BAD_SHAPE, 0));
    assert_eq!((difference.call.kinds[5], difference.call.numbers[5]), (NEGATIVE, 0));
}

#[test]
fn a_longer_word_is_found() {
    let difference = found(&first_four_bytes);
    assert_eq!(difference.left.number, UNKNOWN_WORD);
    assert!(difference.call.word.len() > 4);
}

#[test]
fn a_place_that_is_not_the_line_given_is_found() {
    let difference = found(&place_0_in_5);
    assert_eq!(numbers_of(&difference), (OUT_OF_LIMITS, OUT_OF_LIMITS));
    assert_eq!((difference.left.place, difference.right.place), (difference.call.line, 0));
}

#[test]
fn a_product_that_wraps_is_found() {
    let difference = found(&product_wraps);
    assert_eq!(numbers_of(&difference), (NO_SUCH_LINE, 0));
    assert!(difference.call.line > u64::MAX / LINE as u64);
}

#[test]
fn digits_without_room_are_found() {
    assert_eq!(numbers_of(&found(&digits_cut)).0, OUT_OF_LIMITS);
}

#[test]
fn a_width_tested_too_soon_is_found() {
    assert_eq!(numbers_of(&found(&width_first)), (BAD_SHAPE, OUT_OF_LIMITS));
}

#[test]
fn a_kind_that_is_none_is_found() {
    assert_eq!(numbers_of(&found(&any_kind_a_number)).0, BAD_SHAPE);
}

#[test]
fn a_line_past_the_longest_listing_is_found() {
    let difference = found(&one_line_more);
    assert_eq!(numbers_of(&difference), (NO_SUCH_LINE, 0));
    assert!(difference.call.listing.len() >= 1639 * LINE);
}

#[test]
fn one_register_twice_is_found() {
    let difference = found(&one_register_twice);
    assert_eq!(difference.left.number, ONE_REGISTER_TWICE);
    assert_eq!(difference.call.word, b"DIVM");
}

#[test]
fn a_line_looked_for_before_the_registers_is_found() {
    assert_eq!(numbers_of(&found(&line_before_registers)), (ONE_REGISTER_TWICE, NO_SUCH_LINE));
}

#[test]
fn registers_compared_too_soon_are_found() {
    for number in [BAD_SHAPE, OUT_OF_LIMITS] {
        assert_eq!(numbers_of(&found(&|call| registers_before(number, call))), (number, ONE_REGISTER_TWICE));
    }
}

#[test]
fn registers_compared_for_other_words_are_found() {
    assert_eq!(numbers_of(&found(&any_word_with_registers)), (0, ONE_REGISTER_TWICE));
}

#[test]
fn registers_without_the_line_given_are_found() {
    let difference = found(&place_0_in_19);
    assert_eq!((difference.left.place, difference.right.place), (difference.call.line, 0));
}

#[test]
fn a_turn_line_that_is_not_set_is_found() {
    assert_eq!(numbers_of(&found(&no_turn)).1, UNKNOWN_WORD);
    assert_eq!(numbers_of(&found(&turn_on_line_1_alone)), (0, BAD_ORDER));
}

#[test]
fn a_turn_line_of_a_size_is_found() {
    assert_eq!(numbers_of(&found(&turn_of_a_size)).0, OUT_OF_LIMITS);
}
