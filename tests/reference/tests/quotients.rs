//! The nearest quotient: in a step, at both ends of its range, and in claims.

mod answers;

use answers::{claim_fails, fails, passes};
use lines::listing;
use reference::{edges, read, run, step, Arithmetic, Instruction, Known, Operand, Outcome, Range, State, Step, Whole};

const MAX: u32 = u32::MAX;

/// What a step makes of a dividend in register 1 and a divisor in register 2.
fn by_register(i: u32, o: u32) -> u32 {
    let mut state = State { point: 0, registers: [9; 16] };
    (state.registers[1], state.registers[2]) = (i, o);
    let ran = run(&listing("LEAS 2 _ _ _ _ 1; DIVF 0 1 _ _ 0 2; STOP"), state, &[], &mut [], 1);
    assert_eq!((ran.outcome, ran.steps), (Outcome::Stopped, 1));
    assert_eq!(ran.state.registers[1..], state.registers[1..]);
    ran.state.registers[0]
}

/// The same with the divisor as a number.
fn by_number(i: u32, o: u32) -> u32 {
    let mut state = State { point: 0, registers: [9; 16] };
    state.registers[1] = i;
    let ran = run(&listing(&format!("DIVF 0 1 _ _ 1 {o}; STOP")), state, &[], &mut [], 1);
    assert_eq!(ran.outcome, Outcome::Stopped);
    ran.state.registers[0]
}

#[track_caller]
fn gives(i: u32, o: u32, quotient: u32) {
    assert_eq!((by_register(i, o), by_number(i, o)), (quotient, quotient), "{i} by {o}");
}

#[test]
fn seven_by_two_is_four() {
    gives(7, 2, 4);
    gives(6, 2, 3);
    gives(8, 2, 4);
}

#[test]
fn a_half_goes_up() {
    gives(1, 2, 1);
    gives(3, 2, 2);
    gives(2, 4, 1);
    gives(6, 4, 2);
    gives(5, 10, 1);
    gives(4, 10, 0);
    gives(50, 100, 1);
    gives(49, 100, 0);
    gives(1 << 30, 1 << 31, 1);
    gives((1 << 30) - 1, 1 << 31, 0);
}

#[test]
fn every_remainder_of_odd_and_even_divisors() {
    for o in [1, 2, 3, 4, 5, 6, 7, 8, 9, 10, 99, 100, 101] {
        let halves = (0..o).filter(|rest| rest + rest == o).count();
        assert_eq!(halves, if o % 2 == 0 { 1 } else { 0 }, "{o}");
        for whole in [0, 1, 2, 41, MAX / o - 1] {
            for rest in 0..o {
                let up = rest >= o - rest;
                gives(whole * o + rest, o, if up { whole + 1 } else { whole });
            }
        }
    }
}

#[test]
fn the_greatest_dividends_and_divisors() {
    gives(MAX, 1, MAX);
    gives(MAX - 1, 1, MAX - 1);
    gives(MAX, 2, 2_147_483_648);
    gives(MAX - 1, 2, 2_147_483_647);
    gives(MAX, 3, 1_431_655_765);
    gives(MAX, MAX, 1);
    gives(MAX, MAX - 1, 1);
    gives(MAX - 1, MAX, 1);
    // no half: the greatest number is odd
    gives((MAX - 1) / 2, MAX, 0);
    gives(MAX.div_ceil(2), MAX, 1);
    gives((MAX - 1) / 2, MAX - 1, 1);
    gives((MAX - 1) / 2 - 1, MAX - 1, 0);
    // 2 × i, and 2 × i + o, are above 32 bits
    gives(1 << 31, 1 << 31, 1);
    gives(3 << 30, 1 << 31, 2);
    gives((3 << 30) - 1, 1 << 31, 1);
}

#[test]
fn nothing_divided_is_nothing() {
    for o in [1, 2, 3, 4, 65_535, 65_536, 1 << 31, MAX - 1, MAX] {
        gives(0, o, 0);
    }
}

#[test]
fn a_register_divided_by_itself_and_over_itself() {
    let run_it = |notation: &str, registers: [u32; 3]| {
        let mut state = State { point: 0, registers: [0; 16] };
        state.registers[..3].copy_from_slice(&registers);
        run(&listing(notation), state, &[], &mut [], 1).state.registers[..3].to_vec()
    };
    assert_eq!(run_it("DIVF 1 1 _ _ 1 2; STOP", [9, 7, 9]), [9, 4, 9]);
    assert_eq!(run_it("LEAS 2 _ _ _ _ 1; DIVF 2 1 _ _ 0 2; STOP", [9, 7, 2]), [9, 7, 4]);
    assert_eq!(run_it("LEAS 1 _ _ _ _ 1; DIVF 0 1 _ _ 0 1; STOP", [9, MAX, 9]), [1, MAX, 9]);
}

#[test]
fn sizes_are_divided_too() {
    let text = listing("LEAS 17 _ _ _ _ 1; DIVF 0 16 _ _ 0 17; STOP");
    let quotient = |trays: usize, results: usize| {
        let state = State { point: 0, registers: [9; 16] };
        run(&text, state, &vec![0; trays], &mut vec![0; results], 1).state.registers[0]
    };
    assert_eq!(quotient(7, 2), 4);
    assert_eq!(quotient(5, 3), 2);
    assert_eq!(quotient(65_536, 1), 65_536);
    assert_eq!(quotient(32_768, 65_536), 1);
    assert_eq!(quotient(32_767, 65_536), 0);
}

#[test]
fn a_zero_divisor_is_the_error_state() {
    let text = read(&listing("DIVF 0 1 _ _ 0 2; STOP")).unwrap();
    assert_eq!(step(&text, &State { point: 0, registers: [0; 16] }, &[], &mut []), Step::Error);
    fails("DIVF 0 1 _ _ 0 2; STOP", 12, 1);
}

/// The range of d = 0 along the edge, for ranges of i = 1 and o = 2.
fn range(i: [Whole; 2], o: [Whole; 2]) -> Option<Range> {
    edge_range(0, i, o)
}

fn edge_range(d: usize, [lo, hi]: [Whole; 2], [lo_o, hi_o]: [Whole; 2]) -> Option<Range> {
    let mut known = Known::nothing();
    (known.ranges[1], known.ranges[2]) = (Range { lo, hi }, Range { lo: lo_o, hi: hi_o });
    let divide = Instruction::Compute { kind: Arithmetic::Divide, d, i: 1, o: Operand::Variable(2) };
    edges(0, &divide, &known).remove(0).known.map(|known| known.ranges[d])
}

fn ends(lo: Whole, hi: Whole) -> Option<Range> {
    Some(Range { lo, hi })
}

#[test]
fn the_low_end_is_by_the_greatest_divisor_and_the_high_end_by_the_least() {
    assert_eq!(range([7, 9], [2, 4]), ends(2, 5));
    assert_eq!(range([5, 9], [2, 4]), ends(1, 5));
    assert_eq!(range([6, 8], [2, 4]), ends(2, 4));
    assert_eq!(range([10, 10], [3, 4]), ends(3, 3));
    assert_eq!(range([11, 11], [3, 5]), ends(2, 4));
    let max = Whole::from(MAX);
    assert_eq!(range([0, max], [1, max]), ends(0, max));
    assert_eq!(range([(max - 1) / 2, max], [2, max]), ends(0, 1 << 31));
    assert_eq!(range([(max + 1) / 2, max], [max, max]), ends(1, 1));
    assert_eq!(range([max, max], [max, max]), ends(1, 1));
}

#[test]
fn ranges_on_both_sides_of_a_half() {
    assert_eq!(range([4, 5], [3, 3]), ends(1, 2));
    assert_eq!(range([2, 3], [4, 4]), ends(1, 1));
    assert_eq!(range([1, 2], [4, 4]), ends(0, 1));
    // one dividend, divisors on both sides
    assert_eq!(range([5, 5], [10, 11]), ends(0, 1));
    assert_eq!(range([5, 5], [9, 10]), ends(1, 1));
}

#[test]
fn a_divisor_that_may_be_zero_counts_as_one_at_the_high_end() {
    assert_eq!(range([7, 9], [0, 4]), ends(2, 9));
    assert_eq!(range([7, 9], [1, 4]), ends(2, 9));
}

#[test]
fn no_step_where_the_divisor_can_only_be_zero() {
    assert_eq!(range([7, 9], [0, 0]), None);
    assert_eq!(edge_range(2, [7, 9], [0, 0]), None);
    // 12 goes before the claims that would follow
    fails("MOST 1 _ _ _ _ 0; DIVF 1 2 _ _ 0 1; LEAS 1 _ _ _ _ 9; STOP", 12, 2);
    fails("MOST 1 _ _ _ _ 0; DIVF 2 2 _ _ 0 1; LEAS 2 _ _ _ _ 9; STOP", 12, 2);
}

/// Dividend and divisor in registers 1 and 2, in ranges one of which is empty, and a claim that no quotient meets.
#[test]
fn nothing_is_owed_of_an_empty_dividend_or_divisor() {
    for d in [0, 1, 2] {
        let divided = |of: [u32; 2], by: [u32; 2]| {
            let least = format!("LEAS 1 _ _ _ _ {}; LEAS 2 _ _ _ _ {};", of[0], by[0]);
            let most = format!("MOST 1 _ _ _ _ {}; MOST 2 _ _ _ _ {};", of[1], by[1]);
            format!("JUMP _ _ _ 0; {least} {most} DIVF {d} 1 _ _ 0 2; LEAS {d} _ _ _ _ 7; STOP")
        };
        claim_fails(&divided([2, 3], [4, 4]), 6, 7);
        passes(&divided([3, 2], [4, 4]), 3);
        claim_fails(&divided([6, 6], [3, 4]), 6, 7);
        passes(&divided([6, 6], [4, 3]), 3);
        passes(&divided([6, 6], [1, 0]), 3);
    }
}

#[test]
fn claims_at_the_ends_follow_and_tighter_ones_do_not() {
    let before = "LEAS 1 _ _ _ _ 7; LEAS 2 _ _ _ _ 2; MOST 1 _ _ _ _ 9; MOST 2 _ _ _ _ 4; DIVF 0 1 _ _ 0 2;";
    passes(&format!("{before} LEAS 0 _ _ _ _ 2; MOST 0 _ _ _ _ 5; STOP"), 2);
    claim_fails(&format!("{before} LEAS 0 _ _ _ _ 3; MOST 0 _ _ _ _ 5; STOP"), 5, 6);
    claim_fails(&format!("{before} LEAS 0 _ _ _ _ 2; MOST 0 _ _ _ _ 4; STOP"), 5, 7);
    passes("DIVF 0 1 _ _ 1 2; MOST 0 _ _ _ _ 2147483648; STOP", 2);
    claim_fails("DIVF 0 1 _ _ 1 2; MOST 0 _ _ _ _ 2147483647; STOP", 1, 2);
    passes("DIVF 0 1 _ _ 1 4294967295; MOST 0 _ _ _ _ 1; STOP", 2);
    claim_fails("DIVF 0 1 _ _ 1 4294967295; MOST 0 _ _ _ _ 0; STOP", 1, 2);
    // a size has 65,536 bytes at most
    passes("DIVF 0 17 _ _ 1 3; MOST 0 _ _ _ _ 21845; STOP", 2);
    passes("DIVF 0 17 _ _ 1 131072; MOST 0 _ _ _ _ 1; STOP", 2);
    passes("DIVF 0 17 _ _ 1 131073; MOST 0 _ _ _ _ 0; STOP", 2);
    claim_fails("DIVF 0 17 _ _ 1 131072; MOST 0 _ _ _ _ 0; STOP", 1, 2);
}

/// A claim that the quotient rounded down would meet is turned back; redone for the nearest quotient, it passes.
#[test]
fn claims_made_for_a_quotient_rounded_down() {
    let halved = |most: u32| format!("MOST 1 _ _ _ _ 7; DIVF 0 1 _ _ 1 2; MOST 0 _ _ _ _ {most}; STOP");
    claim_fails(&halved(3), 2, 3);
    passes(&halved(4), 2);
    // the quotient is an index: a table of 3 bytes has room for 0 to 2 only
    let indexed = |size: u32, most: u32| {
        let kept = format!("LEAS 16 _ _ _ _ {size};");
        format!("{kept} MOST 1 _ _ _ _ 5; DIVF 0 1 _ _ 1 2; {kept} MOST 0 _ _ _ _ {most}; LOAD 3 1 0 1 0 0; STOP")
    };
    claim_fails(&indexed(3, 2), 3, 5);
    passes(&indexed(4, 3), 3);
    // by a stripe that only ranges show
    let striped = |b: i64| format!("MOST 1 _ _ _ _ 7; DIVF 0 1 _ _ 1 2; STRP 16 10 0 _ _ {b}; STOP");
    claim_fails(&striped(-30), 2, 3);
    passes(&striped(-40), 2);
}

/// A claim that only the nearest quotient meets.
#[test]
fn the_least_quotient_is_rounded_too() {
    passes("LEAS 1 _ _ _ _ 7; DIVF 0 1 _ _ 1 2; LEAS 0 _ _ _ _ 4; STOP", 2);
    claim_fails("LEAS 1 _ _ _ _ 7; DIVF 0 1 _ _ 1 2; LEAS 0 _ _ _ _ 5; STOP", 2, 3);
    passes("LEAS 1 _ _ _ _ 2; DIVF 0 1 _ _ 1 4; LEAS 0 _ _ _ _ 1; STOP", 2);
    claim_fails("LEAS 1 _ _ _ _ 1; DIVF 0 1 _ _ 1 4; LEAS 0 _ _ _ _ 1; STOP", 2, 3);
}
