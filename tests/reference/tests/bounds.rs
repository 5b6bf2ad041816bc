//! TURN lines, and how many steps a routine can need: each clause of a covered way back, and what breaks it.

mod answers;

use answers::{claim_fails, fails, passes};
use lines::listing;
use reference::{claim_span, run, set_line, step_bound, Field, Outcome, Refusal, State};

const MAX: u64 = 4_294_967_295;

#[track_caller]
fn bounded(notation: &str, bound: u64) {
    assert_eq!(step_bound(&listing(notation)), Ok(bound), "{notation}");
}

#[track_caller]
fn refused(notation: &str, number: u64, place: u64) {
    assert_eq!(step_bound(&listing(notation)), Err(Refusal { number, place, second: 0 }), "{notation}");
}

/// A listing that passes but has no bound.
#[track_caller]
fn unbounded(notation: &str, points: u64, place: u64) {
    passes(notation, points);
    refused(notation, 20, place);
}

/// A loop that takes 2 from register 3 in each round: COPY, BLTU, SUBW, JUMP, STOP on lines 3, 4, 6, 7, 8.
const COUNTED: &str = "TURN 3; MOST 3 _ _ _ _ 9; COPY 1 2; BLTU _ 3 _ 4 1 2; LEAS 3 _ _ _ _ 2; SUBW 3 3 _ _ 1 2;
    JUMP _ _ _ 1; STOP";

/// The loop with one part put in place of another, which stands there once.
#[track_caller]
fn with(part: &str, other: &str) -> String {
    assert_eq!(COUNTED.matches(part).count(), 1, "{part}");
    COUNTED.replace(part, other)
}

#[test]
fn a_loop_that_counts_down_has_a_bound() {
    passes(COUNTED, 5);
    bounded(COUNTED, 5 * 10);
    bounded(&with("MOST 3 _ _ _ _ 9;", "MOST 3 _ _ _ _ 0;"), 5);
    bounded(&with("MOST 3 _ _ _ _ 9;", ""), 5 * (MAX + 1));
}

/// Whatever is claimed of other registers and at later points, and however much is taken each time.
#[test]
fn the_greatest_value_at_point_0_counts() {
    bounded(&with("SUBW", "MOST 3 _ _ _ _ 4294967295; SUBW").replace("JUMP", "MOST 3 _ _ _ _ 4294967293; JUMP"), 50);
    bounded(&with("MOST 3 _ _ _ _ 9;", "MOST 4 _ _ _ _ 2; STRP 4 1 3 _ _ 0;"), 5 * (MAX + 1));
    bounded(&with("MOST 3 _ _ _ _ 9;", "LEAS 3 _ _ _ _ 8; MOST 3 _ _ _ _ 9;"), 50);
    let back_to_0 = "TURN 0; MOST 0 _ _ _ _ 6; BEQU _ 0 _ 3 1 0; LEAS 0 _ _ _ _ 1; MOST 0 _ _ _ _ 6; SUBW 0 0 _ _ 1 1;
        MOST 0 _ _ _ _ 5; JUMP _ _ _ 0; STOP";
    bounded(back_to_0, 4 * 7);
}

#[test]
fn a_bound_of_41_bits() {
    let copies = "COPY 1 2; ".repeat(508);
    let text = format!("TURN 0; {copies} BEQU _ 0 _ 511 1 0; LEAS 0 _ _ _ _ 1; SUBW 0 0 _ _ 1 1; JUMP _ _ _ 0; STOP");
    bounded(&text, 1 << 41);
    bounded(&text.replace("JUMP _ _ _ 0", "JUMP _ _ _ 511"), 512);
}

#[test]
fn nothing_goes_back() {
    bounded("STOP", 1);
    bounded("TURN 15; STOP", 1);
    bounded("COPY 0 1; STOP", 2);
    bounded("TURN 0; SETC 0 _ _ _ _ 7; JUMP _ _ _ 2; STOP", 3);
    bounded("BLTU _ 0 _ 2 0 1; JUMP _ _ _ 2; STOP", 3);
    // the register's greatest value is of no account
    bounded("TURN 0; BEQU _ 0 _ 2 0 1; SUBW 0 0 _ _ 1 1; STOP", 3);
}

#[test]
fn without_turn_no_way_back_is_covered() {
    unbounded(&with("TURN 3;", ""), 5, 6);
    unbounded("JUMP _ _ _ 0", 1, 1);
}

#[test]
fn the_point_just_before_is_a_subw_of_the_register() {
    unbounded(&with("JUMP _ _ _ 1;", "COPY 1 2; JUMP _ _ _ 1;").replace("_ 4 1 2", "_ 5 1 2"), 6, 8);
    for other in ["COPY 1 2", "COPY 5 3", "SUBW 4 3 _ _ 1 2", "ADDW 4 4 _ _ 1 2", "BEQU _ 3 _ 4 1 2"] {
        unbounded(&with("SUBW 3 3 _ _ 1 2", other), 5, 7);
    }
    unbounded(&with("TURN 3", "TURN 4"), 5, 7);
}

#[test]
fn nothing_stands_before_a_jump_at_point_0() {
    unbounded("TURN 3; JUMP _ _ _ 0", 1, 2);
    unbounded("TURN 3; JUMP _ _ _ 0; STOP", 2, 2);
    unbounded("TURN 3; JUMP _ _ _ 0; LEAS 3 _ _ _ _ 1; SUBW 3 3 _ _ 1 1; STOP", 3, 2);
}

#[test]
fn the_jump_is_no_target() {
    // one more point in front of the SUBW: the JUMP is point 4
    let skipped = |line: &str| {
        with("LEAS 3 _ _ _ _ 2;", &format!("LEAS 3 _ _ _ _ 2; {line}; LEAS 3 _ _ _ _ 2;")).replace("_ 4 1 2", "_ 5 1 2")
    };
    bounded(&skipped("BEQU _ 1 _ 3 1 7"), 60);
    unbounded(&skipped("BEQU _ 1 _ 4 1 7"), 6, 9);
    bounded(&skipped("BEQU _ 1 _ 5 1 7"), 60);
    unbounded(&skipped("JUMP _ _ _ 4"), 6, 9);
    // a branch that never goes there, and a JUMP that nothing reaches
    unbounded(&skipped("BLTU _ 1 _ 4 1 0"), 6, 9);
    unbounded(&format!("{COUNTED}; JUMP _ _ _ 3"), 6, 7);
    unbounded(&format!("{COUNTED}; JUMP _ _ _ 5"), 6, 9);
    // its own
    unbounded(&with("JUMP _ _ _ 1", "JUMP _ _ _ 3"), 5, 7);
}

#[test]
fn a_jump_forward_may_be_a_target_and_stand_anywhere() {
    bounded("TURN 3; BEQU _ 1 _ 1 1 7; JUMP _ _ _ 2; STOP", 3);
}

/// All that writes the TURN register, at a point that is reached and at one that is not.
#[test]
fn every_writer_counts_down() {
    // an access at register 4 stays in its table
    let kept = "LEAS 16 _ _ _ _ 1; LEAS 17 _ _ _ _ 1; MOST 4 _ _ _ _ 0;";
    let dead = |line: &str| format!("{COUNTED}; LEAS 3 _ _ _ _ 2; {kept} {line}; STOP");
    let unfit = [
        "SETC 3 _ _ _ _ 0",
        "COPY 3 3",
        "COPY 3 16",
        "ADDW 3 3 _ _ 1 0",
        "SUBW 3 3 _ _ 1 0",
        "SUBW 3 4 _ _ 1 2",
        "SUBW 3 3 _ _ 0 3",
        "SUBW 3 3 _ _ 0 4",
        "SUBW 3 3 _ _ 1 3",
        "MULW 3 3 _ _ 1 1",
        "DIVF 3 3 _ _ 1 2",
        "DIVM 3 3 4 _ 1 2",
        "DIVM 4 3 3 _ 1 2",
        "LOAD 3 1 0 1 4 0",
    ];
    for line in unfit {
        // the place is the way back, not the writer
        unbounded(&dead(line), 7, 7);
        if !line.starts_with("LOAD") {
            unbounded(&with("COPY 1 2", line), 5, 7);
        }
        // another register may be written in any way
        let other = line.replacen(" 3 ", " 5 ", 1).replace("DIVM 4 5 3", "DIVM 4 3 5");
        bounded(&dead(&other), 70);
    }
    for line in ["SUBW 3 3 _ _ 1 1", "SUBW 3 3 _ _ 1 2", "STOR 3 1 _ 1 4 0", "BLTU _ 3 _ 6 1 2"] {
        bounded(&dead(line), 70);
    }
}

#[test]
fn the_least_value_is_the_points_own() {
    let least = |claim: &str, number: u32| {
        let counted = format!("{claim} SUBW 3 3 _ _ 1 {number};");
        format!("TURN 3; LEAS 3 _ _ _ _ 2; COPY 1 2; BLTU _ 3 _ 4 1 9; {counted} JUMP _ _ _ 1; STOP")
    };
    bounded(&least("LEAS 3 _ _ _ _ 2;", 2), 5 * (MAX + 1));
    bounded(&least("LEAS 3 _ _ _ _ 9;", 9), 5 * (MAX + 1));
    bounded(&least("LEAS 3 _ _ _ _ 2;", 1), 5 * (MAX + 1));
    // that 9 are there along the edge is no claim
    unbounded(&least("LEAS 3 _ _ _ _ 2;", 3), 5, 7);
    unbounded(&least("LEAS 3 _ _ _ _ 0;", 1), 5, 7);
    unbounded(&least("LEAS 4 _ _ _ _ 0;", 1), 5, 7);
    unbounded(&least("MOST 3 _ _ _ _ 4294967295;", 1), 5, 7);
    unbounded(&least("", 1), 5, 6);
}

#[test]
fn the_number_is_at_least_1() {
    let number = |c: u64, lo: u64| {
        format!("TURN 3; BLTU _ 3 _ 3 1 {lo}; LEAS 3 _ _ _ _ {lo}; SUBW 3 3 _ _ 1 {c}; JUMP _ _ _ 0; STOP")
    };
    bounded(&number(1, 1), 4 * (MAX + 1));
    unbounded(&number(0, 1), 4, 5);
    unbounded(&number(0, 0), 4, 5);
    bounded(&number(MAX, MAX), 4 * (MAX + 1));
    unbounded(&number(MAX, MAX - 1), 4, 5);
}

#[test]
fn no_branch_back_is_covered() {
    unbounded(&with("JUMP _ _ _ 1", "BEQU _ 1 _ 1 1 7"), 5, 7);
    unbounded(&with("JUMP _ _ _ 1", "BLTU _ 3 _ 0 1 0").replace("MOST 3 _ _ _ _ 9;", ""), 5, 6);
    // to its own point
    unbounded(&with("COPY 1 2", "BEQU _ 1 _ 0 1 7"), 5, 3);
    unbounded(&with("JUMP _ _ _ 1", "BEQU _ 1 _ 3 1 7"), 5, 7);
    // beside a loop that is covered
    unbounded(&format!("{COUNTED}; BLTU _ 1 _ 4 1 7; STOP"), 7, 9);
}

/// Ways back that no run takes: not reached, or along an edge that is impossible.
#[test]
fn ways_back_go_by_the_text() {
    unbounded("STOP; JUMP _ _ _ 0", 2, 2);
    unbounded("TURN 0; STOP; JUMP _ _ _ 1", 2, 3);
    unbounded("STOP; LEAS 0 _ _ _ _ 1; MOST 0 _ _ _ _ 0; JUMP _ _ _ 0; STOP", 3, 4);
    unbounded("BLTU _ 0 _ 0 1 0; STOP", 2, 1);
    let behind = |lo: u32, hi: u32| {
        let claims = format!("LEAS 0 _ _ _ _ {lo}; MOST 0 _ _ _ _ {hi};");
        format!("TURN 0; MOST 0 _ _ _ _ 4; STOP; {claims} SUBW 0 0 _ _ 1 1; MOST 0 _ _ _ _ 4; JUMP _ _ _ 0")
    };
    bounded(&behind(1, 5), 15);
    bounded(&behind(5, 4), 15);
}

#[test]
fn the_first_way_back_that_is_not_covered_is_named() {
    let bad = "BLTU _ 1 _ 1 1 0";
    unbounded(&format!("{COUNTED}; {bad}; {bad}; STOP"), 8, 9);
    unbounded(&with("JUMP", &format!("{bad}; JUMP")), 6, 7);
    unbounded(&with("COPY 1 2", "BLTU _ 1 _ 0 1 0; COPY 1 2"), 6, 3);
    // where one writer is unfit, those that were covered are so no more
    unbounded(&format!("{COUNTED}; COPY 3 3; {bad}; STOP"), 8, 7);
}

#[test]
fn several_loops_share_the_register() {
    let one = |at: u32| format!("BEQU _ 0 _ {} 1 0; LEAS 0 _ _ _ _ 1; SUBW 0 0 _ _ 1 1; JUMP _ _ _ {at};", at + 3);
    bounded(&format!("TURN 0; MOST 0 _ _ _ _ 5; COPY 1 2; {} {} STOP", one(1), one(4)), 8 * 6);
    // one in the other: both go back to point 1
    let inner = "LEAS 0 _ _ _ _ 2; BEQU _ 1 _ 5 1 9; LEAS 0 _ _ _ _ 2; SUBW 0 0 _ _ 1 2; JUMP _ _ _ 1;";
    let outer = "LEAS 0 _ _ _ _ 2; SUBW 0 0 _ _ 1 1; JUMP _ _ _ 1;";
    bounded(&format!("TURN 0; MOST 0 _ _ _ _ 5; COPY 1 2; BLTU _ 0 _ 7 1 2; {inner} {outer} STOP"), 8 * 6);
}

#[test]
fn turn_is_the_first_line_or_none() {
    passes("TURN 0; STOP", 1);
    passes("TURN 15; LEAS 0 _ _ _ _ 1; MOST 0 _ _ _ _ 9; STRP 0 1 1 _ _ -9; STOP", 1);
    for other in ["TURN 0", "LEAS 0 _ _ _ _ 0", "MOST 0 _ _ _ _ 0", "STRP 0 1 0 _ _ 0", "STOP", "COPY 0 0"] {
        fails(&format!("{other}; TURN 0; STOP"), 6, 2);
        refused(&format!("{other}; TURN 0; STOP"), 6, 2);
    }
    fails("STOP; STOP; TURN 0", 6, 3);
    // in the order of lines
    fails("LEAS 1 _ _ _ _ 0; LEAS 1 _ _ _ _ 0; TURN 0; STOP", 6, 2);
    fails("STOP; TURN 0; LEAS 1 _ _ _ _ 0; LEAS 1 _ _ _ _ 0; STOP", 6, 2);
    fails("STOP; TURN 0; SETX; STOP", 6, 2);
    fails("STOP; SETX; TURN 0; STOP", 3, 2);
    fails("STOP; DIVM 1 2 1 _ 1 3; TURN 0; STOP", 19, 2);
    fails("STOP; TURN 0; DIVM 1 2 1 _ 1 3; STOP", 6, 2);
}

#[test]
fn turn_has_a_register_and_nothing_else() {
    for register in 0..16 {
        passes(&format!("TURN {register}; STOP"), 1);
    }
    for register in [16, 17, 18, 9_999] {
        fails(&format!("TURN {register}; STOP"), 5, 1);
        // 5 goes before 6
        fails(&format!("STOP; TURN {register}; STOP"), 5, 2);
    }
    for misshapen in ["", "01", "-1", "-0", "+1", "x"] {
        fails(&format!("TURN {misshapen}; STOP"), 4, 1);
        fails(&format!("STOP; TURN {misshapen}; STOP"), 4, 2);
    }
    for filled in ["_ 0", "0 0", "0 _ 0", "0 _ _ 0", "0 _ _ _ 0", "0 _ _ _ _ 0", "16 0"] {
        fails(&format!("TURN {filled}; STOP"), 4, 1);
    }
    fails("TRUN 0; STOP", 3, 1);
    fails("turn 0; STOP", 3, 1);
}

#[test]
fn turn_is_a_claim_line() {
    fails("TURN 0", 7, 1);
    fails("TURN 0; LEAS 0 _ _ _ _ 0", 7, 2);
    fails("TURN 0; STOP; LEAS 0 _ _ _ _ 0", 7, 3);
    // it is none of the eight stripes, and none of the 512 points
    let stripes = "STRP 0 1 1 _ _ 0; ".repeat(8);
    passes(&format!("TURN 0; {stripes} STOP"), 1);
    fails(&format!("TURN 0; {stripes} STRP 0 1 1 _ _ 0; STOP"), 6, 10);
    passes(&format!("TURN 0; {}", "STOP; ".repeat(512)), 512);
    fails(&format!("TURN 0; {}", "STOP; ".repeat(513)), 8, 514);
    // it claims nothing
    claim_fails("TURN 0; JUMP _ _ _ 1; LEAS 0 _ _ _ _ 1; STOP", 2, 3);
    passes("TURN 0; JUMP _ _ _ 0; STOP", 2);
    fails("TURN 0; LEAS 0 _ _ _ _ 2; MOST 0 _ _ _ _ 1; STOP", 11, 4);
    fails("TURN 0; COPY 0 0", 10, 2);
    fails("TURN 0; JUMP _ _ _ 1", 9, 2);
}

#[test]
fn the_claim_lines_of_point_0_begin_with_it() {
    let span = |notation: &str, point: u64| claim_span(&listing(notation), point);
    assert_eq!(span("TURN 0; STOP", 0), Ok(0..40));
    assert_eq!(span("TURN 0; LEAS 0 _ _ _ _ 0; STOP; STOP; LEAS 0 _ _ _ _ 0; STOP", 0), Ok(0..80));
    assert_eq!(span("TURN 0; LEAS 0 _ _ _ _ 0; STOP; STOP; LEAS 0 _ _ _ _ 0; STOP", 1), Ok(120..120));
    assert_eq!(span("TURN 0; LEAS 0 _ _ _ _ 0; STOP; STOP; LEAS 0 _ _ _ _ 0; STOP", 2), Ok(160..200));
    assert_eq!(span("TURN 0; STOP", 1), Err(Refusal { number: 16, place: 0, second: 0 }));
    assert_eq!(span("STOP; TURN 0; STOP", 0), Err(Refusal { number: 6, place: 2, second: 0 }));
}

#[test]
fn turn_lines_are_set() {
    let only = |field| [field, Field::Blank, Field::Blank, Field::Blank, Field::Blank, Field::Blank];
    let mut text = vec![b'?'; 120];
    // on any line, since 6 is not the setter's
    assert_eq!(set_line(b"TURN", &only(Field::Number(15)), 2, &mut text), Ok(()));
    assert_eq!(text, [vec![b'?'; 40], listing("TURN 15"), vec![b'?'; 40]].concat());
    let number = |fields: [Field; 6], line| set_line(b"TURN", &fields, line, &mut [0; 40]).unwrap_err().number;
    assert_eq!(number(only(Field::Number(16)), 1), 5);
    assert_eq!(number(only(Field::Number(10_000)), 1), 5);
    assert_eq!(number(only(Field::Blank), 1), 4);
    assert_eq!(number(only(Field::Negative(1)), 1), 4);
    assert_eq!(
        number([Field::Number(16), Field::Blank, Field::Blank, Field::Blank, Field::Blank, Field::Number(0)], 1),
        4
    );
    assert_eq!(number(only(Field::Number(3)), 2), 18);
}

#[test]
fn what_goes_before_20() {
    let back = "STOP; JUMP _ _ _ 0;";
    assert_eq!(step_bound(&[]), Err(Refusal { number: 1, place: 0, second: 0 }));
    assert_eq!(step_bound(&listing(back)[1..]), Err(Refusal { number: 1, place: 0, second: 0 }));
    let mut bytes = listing(&format!("{back} STOP"));
    bytes[90] = 200;
    assert_eq!(step_bound(&bytes), Err(Refusal { number: 2, place: 3, second: 0 }));
    for (rest, number, place) in [
        ("SETX", 3, 3),
        ("STOP 0", 4, 3),
        ("COPY 16 0; STOP", 5, 3),
        ("DIVM 0 1 0 _ 1 2; STOP", 19, 3),
        ("TURN 0; STOP", 6, 3),
        ("LEAS 0 _ _ _ _ 0", 7, 3),
        ("JUMP _ _ _ 9; STOP", 9, 3),
        ("COPY 0 1", 10, 3),
        ("DIVF 0 1 _ _ 0 2; STOP", 12, 3),
        ("LOAD 0 1 0 1 1 0; STOP", 13, 3),
    ] {
        refused(&format!("{back} {rest}"), number, place);
    }
    refused(&format!("{back} {}", "STOP; ".repeat(511)), 8, 513);
    refused(&format!("LEAS 0 _ _ _ _ 1; MOST 0 _ _ _ _ 0; {back}"), 11, 3);
    let claim = format!("{back} JUMP _ _ _ 3; LEAS 0 _ _ _ _ 1; STOP");
    assert_eq!(step_bound(&listing(&claim)), Err(Refusal { number: 14, place: 3, second: 4 }));
    refused(&format!("{back} STOP"), 20, 2);
}

/// Runs with the bound as budget stop, and with less they may not.
#[test]
fn a_run_with_the_bound_stops() {
    let text = listing(
        "TURN 0; MOST 0 _ _ _ _ 2; COPY 1 2; COPY 1 2; COPY 1 2; COPY 1 2; BEQU _ 0 _ 7 1 0; LEAS 0 _ _ _ _ 1;
         SUBW 0 0 _ _ 1 1; JUMP _ _ _ 1; STOP",
    );
    assert_eq!(step_bound(&text), Ok(24));
    let ran = |budget: u32| {
        let mut state = State { point: 0, registers: [7; 16] };
        state.registers[0] = 2;
        run(&text, state, &[], &mut [], budget)
    };
    assert_eq!((ran(24).outcome, ran(24).steps), (Outcome::Stopped, 17));
    // a round less is not enough
    assert_eq!(ran(16).outcome, Outcome::Paused);
    let mut left = ran(0).state;
    for _ in 0..8 {
        left = run(&text, left, &[], &mut [], 3).state;
    }
    assert_eq!(run(&text, left, &[], &mut [], 0).outcome, Outcome::Stopped);
}
