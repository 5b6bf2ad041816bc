//! One listing or more for each sentence that could be read in two ways: the other reading gives another answer.

mod answers;

use answers::{claim_fails, fails, passes};
use lines::{listing, FIELDS};
use reference::{check, run, Outcome, State};

const BOUND_LIMIT: i64 = 70_368_744_177_664;

/// The refusal of a listing whose first line has this text in a field, blanks and all.
fn number_with(notation: &str, field: usize, text: &str) -> u64 {
    let mut bytes = listing(notation);
    let (start, end) = FIELDS[field - 1];
    bytes[start..end].fill(b' ');
    bytes[end - text.len()..end].copy_from_slice(text.as_bytes());
    check(&bytes).number
}

#[test]
fn reading_1_shape_of_all_fields_before_limits() {
    fails("SETC 16 _ _ _ _ 01; STOP", 4, 1);
    fails("SETC 16 _ _ _ _ 1; STOP", 5, 1);
    // the first line goes before the second, whatever their numbers
    fails("SETC 16 _ _ _ _ 1; SETC 0 _ _ _ _ 01; STOP", 5, 1);
    fails("SETX 16 _ _ _ _ 01; STOP", 3, 1);
}

#[test]
fn reading_2_a_value_that_is_no_choice() {
    fails("ADDW 0 0 _ _ 2 0; STOP", 5, 1);
    fails("ADDW 0 0 _ _ 2; STOP", 4, 1);
    fails("LOAD 0 3 0 1 0 0; STOP", 5, 1);
    fails("LOAD 0 8 0 1 0 0; STOP", 5, 1);
    fails("LOAD 0 1 2 1 0 0; STOP", 5, 1);
    fails("BEQU _ 0 _ 0 0 18; STOP", 5, 1);
}

#[test]
fn reading_3_shapes_of_numbers() {
    let stripe = "STRP 0 1 1 _ _ 5; STOP";
    for text in ["-0", "-01", "- 1", "--1", "-", "+1", "01", "00", "1 ", "1 1", "1-", "1a", "-1 ", "0-1"] {
        assert_eq!(number_with(stripe, 6, text), 4, "{text:?}");
    }
    assert_eq!(number_with(stripe, 6, "-1"), 0);
    assert_eq!(number_with(stripe, 6, "0"), 0);
    for text in ["-1", "-0", "-"] {
        assert_eq!(number_with("SETC 0 _ _ _ _ 5; STOP", 6, text), 4, "{text:?}");
        assert_eq!(number_with("LEAS 0 _ _ _ _ 5; STOP", 6, text), 4, "{text:?}");
        assert_eq!(number_with(stripe, 1, text), 4, "{text:?}");
    }
}

#[test]
fn reading_4_fields_that_are_not_named() {
    fails("STOR 0 1 0 1 0 0; STOP", 4, 1);
    fails("STRP 0 1 0 _ 0 0; STOP", 4, 1);
    fails("STOP 0", 4, 1);
    fails("JUMP 0 _ _ 0", 4, 1);
    fails("STRP 0 1 0 _ _ _; STOP", 4, 1);
    passes("STRP 0 1 0 0 _ 0; STOP", 1);
}

#[test]
fn reading_5_limits_of_sizes() {
    passes("LEAS 16 _ _ _ _ 65536; STOP", 1);
    fails("LEAS 16 _ _ _ _ 65537; STOP", 5, 1);
    passes("MOST 17 _ _ _ _ 65536; STOP", 1);
    fails("MOST 17 _ _ _ _ 65537; STOP", 5, 1);
    passes("MOST 15 _ _ _ _ 65537; STOP", 1);
    passes("MOST 15 _ _ _ _ 4294967295; STOP", 1);
    fails("MOST 15 _ _ _ _ 4294967296; STOP", 5, 1);
}

#[test]
fn reading_6_targets() {
    fails("JUMP _ _ _ 512", 5, 1);
    fails("JUMP _ _ _ 511", 9, 1);
    fails("JUMP _ _ _ 1", 9, 1);
}

#[test]
fn reading_7_order_of_claims() {
    passes("MOST 1 _ _ _ _ 4294967295; JUMP _ _ _ 1; LEAS 0 _ _ _ _ 0; STOP", 2);
    fails("MOST 1 _ _ _ _ 5; LEAS 18 _ _ _ _ 0; STOP", 5, 2);
    fails("MOST 1 _ _ _ _ 5; LEAS 2 _ _ _ _ 0; STOP", 6, 2);
    fails("LEAS 1 _ _ _ _ 5; LEAS 1 _ _ _ _ 5; STOP", 6, 2);
    fails("MOST 1 _ _ _ _ 5; MOST 0 _ _ _ _ 5; STOP", 6, 2);
    fails("STRP 0 1 0 _ _ 0; MOST 1 _ _ _ _ 5; STOP", 6, 2);
    fails("STRP 0 1 0 _ _ 0; LEAS 1 _ _ _ _ 5; STOP", 6, 2);
    let eight = "STRP 0 1 0 _ _ 0;".repeat(8);
    passes(&format!("{eight} STOP"), 1);
    fails(&format!("{eight} STRP 0 1 0 _ _ 0; STOP"), 6, 9);
}

#[test]
fn reading_8_tests_over_the_whole() {
    fails("STOP; LEAS 0 _ _ _ _ 0", 7, 2);
    fails("SETC 0 _ _ _ _ 0", 10, 1);
    let many = "STOP;".repeat(512);
    passes(&many, 512);
    fails(&format!("{many} LEAS 0 _ _ _ _ 0; STOP"), 8, 514);
    fails(&format!("{many} STOP; LEAS 0 _ _ _ _ 0"), 7, 514);
    fails(&format!("{many} STOP; STOQ"), 3, 514);
    fails(&format!("JUMP _ _ _ 511; {many}"), 8, 513);
    fails("LEAS 0 _ _ _ _ 1; MOST 0 _ _ _ _ 0; JUMP _ _ _ 7; COPY 0 0", 9, 3);
    fails("LEAS 0 _ _ _ _ 1; MOST 0 _ _ _ _ 0; COPY 0 0", 10, 3);
    fails("LEAS 0 _ _ _ _ 1; MOST 0 _ _ _ _ 0; STOP", 11, 3);
}

#[test]
fn reading_9_stripes_do_not_make_point_0_empty() {
    passes("STRP 0 1 0 _ _ 1; STOP", 1);
}

#[test]
fn reading_10_words_are_four_bytes() {
    fails("stop", 3, 1);
    fails("STOp", 3, 1);
}

#[test]
fn reading_11_an_edge_with_an_empty_range() {
    // the claim names another variable than the empty range
    passes("LEAS 0 _ _ _ _ 5; BLTU _ 0 _ 2 1 5; STOP; LEAS 9 _ _ _ _ 9; STOP", 3);
    claim_fails("LEAS 0 _ _ _ _ 4; BLTU _ 0 _ 2 1 5; STOP; LEAS 9 _ _ _ _ 9; STOP", 2, 4);
    passes("LEAS 16 _ _ _ _ 5; BLTU _ 16 _ 2 1 5; STOP; LEAS 9 _ _ _ _ 9; STOP", 3);
    // of the point itself: also where the step overwrites it
    let empty = "JUMP _ _ _ 0; LEAS 0 _ _ _ _ 1; MOST 0 _ _ _ _ 0;";
    passes(&format!("{empty} SETC 0 _ _ _ _ 5; LEAS 0 _ _ _ _ 6; STOP"), 3);
}

#[test]
fn reading_12_ends_below_0_and_above_the_greatest() {
    passes("BLTU _ 0 _ 2 1 0; STOP; LEAS 5 _ _ _ _ 9; STOP", 3);
    passes("MOST 1 _ _ _ _ 0; BLTU _ 0 _ 2 0 1; STOP; LEAS 5 _ _ _ _ 9; STOP", 3);
    passes("LEAS 0 _ _ _ _ 4294967295; BEQU _ 0 _ 2 1 4294967295; LEAS 5 _ _ _ _ 9; STOP; STOP", 3);
    passes("MOST 0 _ _ _ _ 0; BEQU _ 0 _ 2 1 0; LEAS 5 _ _ _ _ 9; STOP; STOP", 3);
}

#[test]
fn reading_13_ends_come_from_before_the_step() {
    let same = "LEAS 0 _ _ _ _ 1; MOST 0 _ _ _ _ 3; BLTU _ 0 _ 2 0 0; STOP;";
    passes(&format!("{same} LEAS 0 _ _ _ _ 2; MOST 0 _ _ _ _ 2; STOP"), 3);
    claim_fails(&format!("{same} LEAS 0 _ _ _ _ 3; STOP"), 3, 5);
}

#[test]
fn reading_14_subtracting_a_number() {
    let less = "LEAS 0 _ _ _ _ 4; SUBW 1 0 _ _ 1 4;";
    passes(&format!("{less} STRP 0 1 1 _ _ 4; STRP 1 1 0 _ _ -4; STOP"), 2);
    claim_fails(&format!("{less} STRP 1 1 0 _ _ -3; STOP"), 2, 3);
    claim_fails("LEAS 0 _ _ _ _ 3; SUBW 1 0 _ _ 1 4; STRP 0 1 1 _ _ 4; STOP", 2, 3);
    passes("LEAS 0 _ _ _ _ 4; STRP 0 1 1 _ _ 9; SUBW 0 0 _ _ 1 4; STRP 0 1 1 _ _ 5; STOP", 2);
}

#[test]
fn reading_15_a_shift_adds_up_and_may_leave_the_limits() {
    let all = "MOST 0 _ _ _ _ 1000; STRP 0 3 0 0 _ 100; ADDW 0 0 _ _ 1 2;";
    passes(&format!("{all} STRP 0 3 0 0 _ 90; STOP"), 2);
    claim_fails(&format!("{all} STRP 0 3 0 0 _ 91; STOP"), 3, 4);
    let shifted = |b: i64, goal: i64| {
        format!("MOST 0 _ _ _ _ 9; STRP 0 1 1 _ _ {b}; ADDW 0 0 _ _ 1 1; STRP 0 1 1 _ _ {goal}; STOP")
    };
    passes(&shifted(BOUND_LIMIT - 1, BOUND_LIMIT), 2);
    claim_fails(&shifted(BOUND_LIMIT, BOUND_LIMIT), 3, 4);
}

#[test]
fn reading_16_sums_of_two_variables() {
    let small = "MOST 0 _ _ _ _ 9; MOST 1 _ _ _ _ 9;";
    passes(&format!("{small} ADDW 2 1 _ _ 0 1; STRP 2 1 1 1 _ 0; STOP"), 2);
    passes(&format!("{small} ADDW 2 0 _ _ 0 1; STRP 2 1 1 0 _ 0; STOP"), 2);
    claim_fails(&format!("{small} ADDW 0 1 _ _ 0 0; STRP 0 1 1 0 _ 0; STOP"), 3, 4);
    claim_fails(&format!("{small} STRP 0 1 5 _ _ 0; ADDW 0 0 _ _ 0 1; STRP 0 1 5 _ _ 0; STOP"), 4, 5);
}

#[test]
fn reading_17_a_variable_with_one_value() {
    let one = "LEAS 1 _ _ _ _ 1; MOST 0 _ _ _ _ 100; MOST 1 _ _ _ _ 1; STRP 17 4 0 _ _ 8;";
    claim_fails(&format!("{one} ADDW 0 0 _ _ 0 1; STRP 17 4 0 _ _ 4; STOP"), 5, 6);
    passes(&format!("{one} ADDW 0 0 _ _ 1 1; STRP 17 4 0 _ _ 4; STOP"), 2);
    claim_fails("LEAS 1 _ _ _ _ 3; MOST 0 _ _ _ _ 9; MOST 1 _ _ _ _ 3; MULW 2 0 _ _ 0 1; STRP 2 3 0 _ _ 0; STOP", 4, 5);
    passes("LEAS 0 _ _ _ _ 5; LEAS 1 _ _ _ _ 5; MOST 1 _ _ _ _ 5; BEQU _ 0 _ 2 0 1; LEAS 0 _ _ _ _ 6; STOP; STOP", 3);
    passes("LEAS 0 _ _ _ _ 5; MOST 0 _ _ _ _ 5; BEQU _ 0 _ 2 1 5; LEAS 9 _ _ _ _ 9; STOP; STOP", 3);
}

#[test]
fn reading_18_a_product_that_may_wrap() {
    passes("MOST 0 _ _ _ _ 9; MULW 1 0 _ _ 1 3; STRP 1 3 0 _ _ 0; STOP", 2);
    claim_fails("MULW 1 0 _ _ 1 3; STRP 1 3 0 _ _ 0; STOP", 1, 2);
    claim_fails("MOST 0 _ _ _ _ 9; STRP 0 1 2 _ _ 0; MULW 0 0 _ _ 1 1; STRP 0 1 2 _ _ 0; STOP", 3, 4);
}

#[test]
fn reading_19_division_by_what_can_only_be_zero() {
    let divided = |lo: u32, hi: u32| {
        format!("JUMP _ _ _ 0; LEAS 1 _ _ _ _ {lo}; MOST 1 _ _ _ _ {hi}; DIVF 1 2 _ _ 0 1; LEAS 5 _ _ _ _ 5; STOP")
    };
    fails(&divided(0, 0), 12, 4);
    claim_fails(&divided(1, 1), 4, 5);
    // the divisor is empty where it is at least 1 and at most 0
    passes(&divided(1, 0), 3);
}

#[test]
fn reading_20_ten_stripes_along_an_edge() {
    let eight: String = (2..10).map(|v| format!("STRP {v} 1 0 _ _ 5;")).collect();
    let goals: String = (2..9).map(|v| format!("STRP {v} 1 0 _ _ 5;")).collect();
    passes(&format!("{eight} BEQU _ 0 _ 1 0 1; {goals} STRP 9 1 0 _ _ 5; STOP"), 2);
    passes(&format!("{eight} BEQU _ 0 _ 2 0 1; STOP; {goals} STRP 9 1 1 _ _ 5; STOP"), 3);
}

#[test]
fn reading_21_a_blank_z_and_the_order_of_y_and_z() {
    claim_fails("MOST 2 _ _ _ _ 0; STRP 0 1 1 _ _ 5; JUMP _ _ _ 1; STRP 0 1 1 2 _ 5; STOP", 3, 4);
    claim_fails("MOST 2 _ _ _ _ 0; STRP 0 1 1 2 _ 5; JUMP _ _ _ 1; STRP 0 1 1 _ _ 5; STOP", 3, 4);
    passes("STRP 0 1 1 2 _ 5; JUMP _ _ _ 1; STRP 0 1 2 1 _ 5; STOP", 2);
    claim_fails("STRP 0 1 1 2 _ 5; JUMP _ _ _ 1; STRP 0 1 2 2 _ 5; STOP", 2, 3);
    claim_fails("STRP 0 2 1 2 _ 5; JUMP _ _ _ 1; STRP 0 1 1 2 _ 5; STOP", 2, 3);
}

#[test]
fn reading_22_one_link_replaces_one_variable() {
    passes("STRP 0 1 3 1 _ 0; STRP 3 1 1 _ _ 10; JUMP _ _ _ 1; STRP 0 1 1 1 _ 10; STOP", 2);
    let steps = "STRP 3 1 1 _ _ 0; STRP 4 1 3 _ _ 0;";
    claim_fails(&format!("STRP 0 1 4 4 _ 0; {steps} JUMP _ _ _ 1; STRP 0 1 1 1 _ 0; STOP"), 4, 5);
    passes(&format!("STRP 0 1 4 3 _ 0; {steps} JUMP _ _ _ 1; STRP 0 1 1 1 _ 0; STOP"), 2);
    // the same stripe three times
    let again = "LEAS 0 _ _ _ _ 10; MOST 1 _ _ _ _ 10; STRP 1 1 1 _ _ 1; JUMP _ _ _ 1;";
    passes(&format!("{again} STRP 0 1 1 _ _ 3; STOP"), 2);
    claim_fails(&format!("{again} STRP 0 1 1 _ _ 4; STOP"), 4, 5);
    // one just added
    passes("STRP 0 7 1 _ _ 5; COPY 2 1; STRP 0 7 2 _ _ 5; STOP", 2);
    // not through a scale above 1
    claim_fails("STRP 0 1 2 _ _ 0; STRP 2 2 1 _ _ 0; JUMP _ _ _ 1; STRP 0 1 1 _ _ 0; STOP", 3, 4);
    // not through a stripe with a z
    claim_fails("MOST 3 _ _ _ _ 0; STRP 0 1 2 _ _ 0; STRP 2 1 1 3 _ 0; JUMP _ _ _ 1; STRP 0 1 1 _ _ 0; STOP", 4, 5);
    // the bound moves by the goal's scale
    passes("STRP 0 5 2 _ _ 0; STRP 2 1 1 _ _ 3; JUMP _ _ _ 1; STRP 0 5 1 _ _ 15; STOP", 2);
    claim_fails("STRP 0 5 2 _ _ 0; STRP 2 1 1 _ _ 3; JUMP _ _ _ 1; STRP 0 5 1 _ _ 16; STOP", 3, 4);
}

#[test]
fn reading_23_three_links_at_most() {
    let three = "STRP 2 1 1 _ _ 0; STRP 3 1 2 _ _ 0; STRP 4 1 3 _ _ 0;";
    let four = "STRP 2 1 1 _ _ 0; STRP 3 1 2 _ _ 0; STRP 4 1 3 _ _ 0; STRP 5 1 4 _ _ 0;";
    passes(&format!("{three} STRP 16 1 4 _ _ 1; JUMP _ _ _ 1; STRP 16 1 1 _ _ 1; STOP"), 2);
    claim_fails(&format!("{four} STRP 16 1 5 _ _ 1; JUMP _ _ _ 1; STRP 16 1 1 _ _ 1; STOP"), 6, 7);
    passes(&format!("{three} STRP 16 1 4 _ _ 1; LOAD 0 1 0 1 1 0; STOP"), 2);
    fails(&format!("{four} STRP 16 1 5 _ _ 1; LOAD 0 1 0 1 1 0; STOP"), 13, 6);
    // by ranges after the third link, and not after a fourth
    passes(&format!("LEAS 16 _ _ _ _ 9; MOST 4 _ _ _ _ 8; {three} LOAD 0 1 0 1 1 0; STOP"), 2);
    fails(&format!("LEAS 16 _ _ _ _ 9; MOST 5 _ _ _ _ 8; {four} LOAD 0 1 0 1 1 0; STOP"), 13, 7);
}

#[test]
fn reading_24_divisors_and_accesses_are_owed_by_ranges() {
    // at points that nothing leads to, but for empty ones
    for (line, number) in [("DIVF 1 2 _ _ 0 3", 12), ("LOAD 1 1 0 1 2 0", 13)] {
        fails(&format!("JUMP _ _ _ 2; {line}; STOP"), number, 2);
        fails(&format!("JUMP _ _ _ 2; LEAS 0 _ _ _ _ 1; MOST 0 _ _ _ _ 1; {line}; STOP"), number, 4);
        passes(&format!("JUMP _ _ _ 2; LEAS 0 _ _ _ _ 1; MOST 0 _ _ _ _ 0; {line}; STOP"), 3);
    }
    fails("STRP 2 1 3 _ _ 1; DIVF 0 1 _ _ 0 2; STOP", 12, 2);
    fails("DIVF 0 1 _ _ 1 0; STOP", 12, 1);
}

#[test]
fn reading_25_both_edges_to_the_next_point() {
    claim_fails("BLTU _ 0 _ 1 1 5; LEAS 0 _ _ _ _ 5; MOST 0 _ _ _ _ 4; STOP", 1, 3);
    claim_fails("BLTU _ 0 _ 1 1 5; LEAS 0 _ _ _ _ 5; STOP", 1, 2);
    claim_fails("BLTU _ 0 _ 1 1 5; MOST 0 _ _ _ _ 4; STOP", 1, 2);
    claim_fails("JUMP _ _ _ 1; LEAS 0 _ _ _ _ 0; LEAS 1 _ _ _ _ 1; LEAS 2 _ _ _ _ 1; STOP", 1, 3);
}

#[test]
fn reading_26_order_of_the_runners_refusals() {
    let listing = listing("LEAS 0 _ _ _ _ 1; JUMP _ _ _ 1; STOP");
    let long = vec![0; 65_537];
    let at = |point, first| {
        let mut state = State { point, registers: [0; 16] };
        state.registers[0] = first;
        state
    };
    let outcome = |state, trays: &[u8], results: &mut [u8], budget| {
        let ran = run(&listing, state, trays, results, budget);
        match ran.outcome {
            Outcome::Refused(refusal) => (refusal.number, refusal.place),
            Outcome::Stopped => (100, ran.steps),
            Outcome::Paused => (200, ran.steps),
        }
    };
    assert_eq!(outcome(at(2, 0), &long, &mut [], 1), (15, 0));
    assert_eq!(outcome(at(2, 0), &[], &mut long.clone(), 1), (15, 0));
    assert_eq!(outcome(at(2, 0), &long[1..], &mut [], 1), (16, 0));
    assert_eq!(outcome(at(u64::MAX, 0), &[], &mut [], 1), (16, 0));
    assert_eq!(outcome(at(0, 0), &[], &mut [], 1), (17, 0));
    assert_eq!(outcome(at(0, 1), &[], &mut [], 0), (200, 0));
    assert_eq!(outcome(at(0, 1), &[], &mut [], 1), (100, 1));
    assert_eq!(outcome(at(1, 0), &[], &mut [], 0), (100, 0));
}

#[test]
fn reading_32_a_point_is_empty_by_ranges_and_its_claims_are_owed() {
    // x - x is never 1
    fails("JUMP _ _ _ 2; STRP 0 1 0 _ _ 1; DIVF 1 2 _ _ 0 3; STOP", 12, 3);
    fails("JUMP _ _ _ 2; MOST 0 _ _ _ _ 1; STRP 0 1 2 _ _ 2; DIVF 1 2 _ _ 0 3; STOP", 12, 4);
    claim_fails("COPY 1 2; LEAS 0 _ _ _ _ 1; MOST 0 _ _ _ _ 0; STOP", 1, 2);
    claim_fails("LEAS 0 _ _ _ _ 1; COPY 1 2; LEAS 0 _ _ _ _ 1; MOST 0 _ _ _ _ 0; STOP", 2, 4);
}
