//! Setting a line: one case or more for each sentence, most of all those that could be read in two ways.

use lines::listing;
use reference::{set_line, Field, Refusal};
use Field::{Blank, Misshapen, Negative, Number};

const OTHER: u8 = b'?';
const BOUND_LIMIT: i128 = 70_368_744_177_664;
const SCALE_LIMIT: i128 = 4_095;
const MAX: i128 = 4_294_967_295;

/// The number and the place of a refusal, after which no byte is changed; 0 and 0 where the line was set.
fn answer(word: &[u8], fields: [Field; 6], line: u64, length: usize) -> (u64, u64) {
    let mut listing = vec![OTHER; length];
    match set_line(word, &fields, line, &mut listing) {
        Ok(()) => (0, 0),
        Err(Refusal { number, place, second }) => {
            assert_eq!(second, 0);
            assert!(listing.iter().all(|&byte| byte == OTHER), "a call that is turned back changes no byte");
            (number, place)
        }
    }
}

/// The number of the answer with one field changed, for line 2 of two.
#[track_caller]
fn expect(word: &str, mut fields: [Field; 6], field: usize, changed: Field, number: u64) {
    fields[field - 1] = changed;
    let place = if number == 0 { 0 } else { 2 };
    assert_eq!(answer(word.as_bytes(), fields, 2, 80), (number, place), "{word} {fields:?}");
}

const STOP: [Field; 6] = [Blank; 6];
const SETC: [Field; 6] = [Number(1), Blank, Blank, Blank, Blank, Number(5)];
const ADDW: [Field; 6] = [Number(1), Number(2), Blank, Blank, Number(0), Number(3)];
const DIVM: [Field; 6] = [Number(1), Number(2), Number(3), Blank, Number(1), Number(4)];
const LOAD: [Field; 6] = [Number(1), Number(2), Number(0), Number(4), Number(5), Number(6)];
const STRP: [Field; 6] = [Number(1), Number(2), Number(3), Number(4), Blank, Negative(5)];

#[test]
fn writes_the_line_and_no_other_byte() {
    let fields = [Number(17), Number(SCALE_LIMIT), Number(0), Blank, Blank, Negative(BOUND_LIMIT)];
    let mut bytes = vec![OTHER; 130];
    assert_eq!(set_line(b"STRP", &fields, 2, &mut bytes), Ok(()));
    let expected = [vec![OTHER; 40], listing("STRP 17 4095 0 _ _ -70368744177664"), vec![OTHER; 50]].concat();
    assert_eq!(bytes, expected);
}

#[test]
fn sets_a_line_of_every_word() {
    let models = [
        "STOP",
        "SETC 15 _ _ _ _ 4294967295",
        "COPY 0 17",
        "ADDW 1 2 _ _ 0 17",
        "SUBW 1 2 _ _ 1 4294967295",
        "MULW 1 2 _ _ 0 0",
        "DIVF 1 2 _ _ 1 0",
        "DIVM 15 17 0 _ 0 17",
        "DIVM 0 0 15 _ 1 4294967295",
        "LOAD 1 4 1 4095 17 65535",
        "STOR 17 1 _ 1 0 0",
        "STOR 17 1 _ 256 0 0",
        "JUMP _ _ _ 511",
        "BLTU _ 17 _ 0 0 3",
        "BEQU _ 1 _ 1 1 3",
        "LEAS 16 _ _ _ _ 65536",
        "MOST 15 _ _ _ _ 65537",
        "STRP 1 2 3 _ _ 5",
        "STRP 1 2 3 17 _ -1",
        "TURN 0",
        "TURN 15",
    ];
    for model in models {
        let line = listing(model);
        let (word, numbers) = reference::read_fields(&line).unwrap();
        let field = |number: Option<i128>| match number {
            None => Blank,
            Some(number) if number < 0 => Negative(-number),
            Some(number) => Number(number),
        };
        let mut set = vec![OTHER; 40];
        assert_eq!(set_line(word, &numbers.map(field), 1, &mut set), Ok(()), "{model}");
        assert_eq!(set, line, "{model}");
    }
}

#[test]
fn a_word_is_four_bytes_of_one_of_seventeen() {
    for word in ["", "STO", "STOP ", "STOPSTOP", "stop", "STOp", " STO", "    ", "STOQ", "STO\n"] {
        assert_eq!(answer(word.as_bytes(), STOP, 2, 80), (3, 2), "{word:?}");
    }
    let whole_line = listing("STOP");
    assert_eq!(answer(&whole_line, STOP, 1, 80), (3, 1));
}

#[test]
fn a_field_is_missing_or_filled_where_blank_is_due() {
    expect("SETC", SETC, 6, Blank, 4);
    expect("SETC", SETC, 1, Blank, 4);
    expect("STOP", STOP, 1, Number(0), 4);
    expect("STRP", STRP, 5, Number(0), 4);
    expect("STRP", STRP, 4, Blank, 0);
    expect("STOR", [Number(1), Number(2), Blank, Number(4), Number(5), Number(6)], 3, Number(0), 4);
    // F6 of an operand is due whatever F5 is
    expect("ADDW", [Number(1), Number(2), Blank, Blank, Number(2), Number(3)], 6, Blank, 4);
}

#[test]
fn a_number_where_blank_is_due_is_4_however_wide() {
    for number in [9_999, 10_000, 999_999_999_999_999, 1_000_000_000_000_000, u64::MAX.into()] {
        expect("STOP", STOP, 1, Number(number), 4);
        expect("STOP", STOP, 6, Number(number), 4);
        expect("STOP", STOP, 6, Negative(number), 4);
    }
}

#[test]
fn a_minus_is_4_in_every_field_but_one() {
    for field in 1..=6 {
        for number in [0, 1, 10_000, u64::MAX.into()] {
            expect("LOAD", LOAD, field, Negative(number), 4);
            expect("SETC", SETC, field, Negative(number), 4);
        }
    }
    for field in 1..=5 {
        expect("STRP", STRP, field, Negative(1), 4);
    }
    expect("LEAS", SETC, 6, Negative(1), 4);
}

#[test]
fn a_minus_on_0_is_4() {
    expect("STRP", STRP, 6, Negative(0), 4);
    expect("STRP", STRP, 6, Number(0), 0);
    expect("STRP", STRP, 6, Negative(1), 0);
}

#[test]
fn a_field_that_is_neither_blank_nor_number_is_4() {
    expect("STOP", STOP, 3, Misshapen, 4);
    expect("LOAD", LOAD, 3, Misshapen, 4);
    expect("STRP", STRP, 4, Misshapen, 4);
    expect("STRP", STRP, 6, Misshapen, 4);
}

#[test]
fn a_number_past_its_limit_is_5() {
    for (word, fields, field, most) in [
        ("SETC", SETC, 1, 15),
        ("SETC", SETC, 6, MAX),
        ("ADDW", ADDW, 2, 17),
        ("ADDW", ADDW, 6, 17),
        ("DIVM", DIVM, 1, 15),
        ("DIVM", DIVM, 2, 17),
        ("DIVM", DIVM, 3, 15),
        ("DIVM", DIVM, 5, 1),
        ("DIVM", DIVM, 6, MAX),
        ("LOAD", LOAD, 2, 4),
        ("LOAD", LOAD, 3, 1),
        ("LOAD", LOAD, 4, SCALE_LIMIT),
        ("LOAD", LOAD, 5, 17),
        ("LOAD", LOAD, 6, 65_535),
        ("LEAS", SETC, 1, 17),
        ("MOST", SETC, 6, MAX),
        ("STRP", STRP, 2, SCALE_LIMIT),
        ("STRP", STRP, 4, 17),
        ("STRP", STRP, 6, BOUND_LIMIT),
    ] {
        expect(word, fields, field, Number(most), 0);
        expect(word, fields, field, Number(most + 1), 5);
    }
    expect("STRP", STRP, 6, Negative(BOUND_LIMIT), 0);
    expect("STRP", STRP, 6, Negative(BOUND_LIMIT + 1), 5);
    expect("STRP", STRP, 2, Number(0), 5);
    expect("LOAD", LOAD, 2, Number(3), 5);
    expect("LOAD", LOAD, 2, Number(0), 5);
    expect("ADDW", ADDW, 5, Number(1), 0);
    expect("ADDW", ADDW, 5, Number(2), 5);
    expect("JUMP", [Blank, Blank, Blank, Number(511), Blank, Blank], 4, Number(512), 5);
}

#[test]
fn the_limits_of_a_size_and_of_a_number_operand() {
    let size = [Number(16), Blank, Blank, Blank, Blank, Number(0)];
    expect("LEAS", size, 6, Number(65_536), 0);
    expect("LEAS", size, 6, Number(65_537), 5);
    expect("MOST", size, 6, Number(65_537), 5);
    let number = [Number(1), Number(2), Blank, Blank, Number(1), Number(3)];
    expect("DIVF", number, 6, Number(MAX), 0);
    expect("DIVF", number, 6, Number(MAX + 1), 5);
}

#[test]
fn a_number_too_wide_for_its_columns_is_5() {
    for number in [10_000, 99_999, 1 << 32, u64::MAX.into()] {
        expect("LOAD", LOAD, 1, Number(number), 5);
        expect("STRP", STRP, 4, Number(number), 5);
    }
    for number in [1_000_000_000_000_000, u64::MAX.into()] {
        expect("SETC", SETC, 6, Number(number), 5);
        expect("STRP", STRP, 6, Number(number), 5);
    }
    // with its minus a negative number takes one column more
    for number in [99_999_999_999_999, 100_000_000_000_000, u64::MAX.into()] {
        expect("STRP", STRP, 6, Negative(number), 5);
    }
}

#[test]
fn a_register_for_both_quotient_and_remainder_is_19() {
    for register in 0..=15 {
        let both = [Number(register), Number(2), Number(register), Blank, Number(1), Number(0)];
        assert_eq!(answer(b"DIVM", both, 2, 80), (19, 2), "{register}");
    }
    // the dividend and a number operand may name it, and F3 of another word is no register
    expect("DIVM", DIVM, 2, Number(1), 0);
    expect("DIVM", DIVM, 6, Number(3), 0);
    expect("STRP", STRP, 3, Number(1), 0);
    expect("LOAD", LOAD, 1, Number(0), 0);
}

#[test]
fn four_and_five_go_before_nineteen_and_eighteen_after() {
    let both = [Number(3), Number(2), Number(3), Blank, Number(0), Number(4)];
    expect("DIVM", both, 4, Number(0), 4);
    expect("DIVM", both, 6, Blank, 4);
    expect("DIVM", both, 2, Number(18), 5);
    expect("DIVM", both, 5, Number(2), 5);
    expect("DIVM", both, 6, Number(18), 5);
    // no register has this number
    for number in [16, 17, 9_999, 10_000, u64::MAX.into()] {
        let none = [Number(number), Number(2), Number(number), Blank, Number(0), Number(4)];
        assert_eq!(answer(b"DIVM", none, 2, 80), (5, 2), "{number}");
    }
    // two blanks, two minuses and two that are neither are no register
    for field in [Blank, Negative(3), Misshapen] {
        let none = [field, Number(2), field, Blank, Number(0), Number(4)];
        assert_eq!(answer(b"DIVM", none, 2, 80), (4, 2), "{field:?}");
    }
    for line in [0, 3, 1_639, u64::MAX] {
        assert_eq!(answer(b"DIVM", both, line, 80), (19, line));
        assert_eq!(answer(b"DIVM", DIVM, line, 80), (18, 0));
    }
}

#[test]
fn three_then_four_then_five_then_eighteen() {
    let wide = [Number(16), Blank, Blank, Blank, Blank, Number(u64::MAX as i128)];
    let wide_and_filled = [Number(16), Blank, Blank, Blank, Number(0), Number(5)];
    assert_eq!(answer(b"SETX", wide_and_filled, 3, 80), (3, 3));
    assert_eq!(answer(b"SETC", wide_and_filled, 3, 80), (4, 3));
    assert_eq!(answer(b"SETC", wide, 3, 80), (5, 3));
    assert_eq!(answer(b"SETC", SETC, 3, 80), (18, 0));
}

#[test]
fn the_place_is_the_line_number_as_given() {
    for line in [0, 1, 1_638, 1_639, u64::MAX] {
        assert_eq!(answer(b"SETX", STOP, line, 0), (3, line));
        assert_eq!(answer(b"SETC", STOP, line, 0), (4, line));
        assert_eq!(answer(b"JUMP", [Blank, Blank, Blank, Number(512), Blank, Blank], line, 0), (5, line));
        assert_eq!(answer(b"STOP", STOP, line, 0), (18, 0));
    }
}

#[test]
fn the_listing_holds_the_line_whole() {
    for (line, length, number) in [
        (1, 0, 18),
        (1, 39, 18),
        (1, 40, 0),
        (1, 41, 0),
        (2, 79, 18),
        (2, 80, 0),
        (2, 119, 0),
        (3, 119, 18),
        (1_638, 65_519, 18),
        (1_638, 65_520, 0),
        (1_638, 65_560, 0),
        (1_639, 65_560, 18),
        (0, 65_560, 18),
        (u64::MAX, 65_560, 18),
        // forty times these is a small number modulo 2^64
        ((1 << 61) + 1, 80, 18),
        (u64::MAX / 40 + 1, 80, 18),
        (u64::MAX / 40 + 2, 80, 18),
    ] {
        assert_eq!(answer(b"STOP", STOP, line, length), (number, 0), "line {line}, {length} bytes");
    }
}
