//! The quotient rounded down and what is left over: in a step, in ranges, stripes and claims, and the refusal of one
//! register for both.

mod answers;

use answers::{claim_fails, fails, passes};
use lines::listing;
use reference::{
    check, claim_span, edges, printed, read, run, step, Instruction, Known, Operand, Outcome, Range, Refusal, Run,
    State, Step, Stripe, Whole, VARIABLES,
};

const MAX: u32 = u32::MAX;
const REGISTERS: usize = 4;

/// A state at point 0 whose first registers hold these.
fn holding(first: &[u32]) -> State {
    let mut state = State { point: 0, registers: [9; 16] };
    state.registers[..first.len()].copy_from_slice(first);
    state
}

/// The first registers after the one step of a listing.
fn after(notation: &str, first: [u32; REGISTERS]) -> [u32; REGISTERS] {
    let before = holding(&first);
    let ran = run(&listing(notation), before, &[], &mut [], 1);
    assert_eq!((ran.outcome, ran.steps, ran.state.point), (Outcome::Stopped, 1, 1), "{notation}");
    assert_eq!(ran.state.registers[REGISTERS..], before.registers[REGISTERS..], "{notation}");
    ran.state.registers[..REGISTERS].try_into().unwrap()
}

/// Quotient in 0 and remainder in 3, by a register and by a number.
#[track_caller]
fn gives(i: u32, o: u32, quotient: u32, remainder: u32) {
    let expected = [quotient, i, o, remainder];
    assert_eq!(after("LEAS 2 _ _ _ _ 1; DIVM 0 1 3 _ 0 2; STOP", [9, i, o, 9]), expected, "{i} by {o}");
    assert_eq!(after(&format!("DIVM 0 1 3 _ 1 {o}; STOP"), [9, i, o, 9]), expected, "{i} by the number {o}");
}

#[test]
fn seven_by_two_is_three_and_one_is_left() {
    gives(7, 2, 3, 1);
    gives(6, 2, 3, 0);
    gives(5, 2, 2, 1);
    gives(10, 4, 2, 2);
    gives(11, 4, 2, 3);
    gives(99, 100, 0, 99);
}

#[test]
fn values_at_0_1_and_the_greatest() {
    for o in [1, 2, 3, 65_536, 1 << 31, MAX - 1, MAX] {
        gives(0, o, 0, 0);
        gives(o, o, 1, 0);
        gives(o - 1, o, 0, o - 1);
    }
    gives(1, MAX, 0, 1);
    gives(MAX, 1, MAX, 0);
    gives(MAX, 2, 2_147_483_647, 1);
    gives(MAX, 3, 1_431_655_765, 0);
    gives(MAX, 65_536, 65_535, 65_535);
    gives(MAX, 1 << 31, 1, (1 << 31) - 1);
    gives(MAX, MAX - 1, 1, 1);
    gives(MAX - 1, MAX, 0, MAX - 1);
}

#[test]
fn the_dividend_is_quotient_times_divisor_and_remainder() {
    for o in [1, 2, 3, 4, 7, 10, 100, 101, 65_535, MAX] {
        for whole in [0, 1, 2, 41, MAX / o] {
            for rest in [0, 1, 2, o / 2, o - 1].into_iter().filter(|&rest| rest < o) {
                let i = whole.checked_mul(o).and_then(|dealt| dealt.checked_add(rest));
                i.into_iter().for_each(|i| gives(i, o, whole, rest));
            }
        }
    }
}

/// Every choice of q, i, r and of a variable o among a few registers, with q and r apart.
fn patterns() -> impl Iterator<Item = [usize; 4]> {
    let all = (0..REGISTERS.pow(4)).map(|code| [code / 64, code / 16 % 4, code / 4 % 4, code % 4]);
    all.filter(|[q, _, r, _]| q != r)
}

#[test]
fn both_come_from_the_values_before_the_step() {
    for values in [[7, 2, 5, 3], [1, MAX, 2, 10], [MAX, MAX - 1, 1, MAX], [6, 6, 6, 6]] {
        for [q, i, r, o] in patterns() {
            let mut expected = values;
            (expected[q], expected[r]) = (values[i] / values[o], values[i] % values[o]);
            let notation = format!("LEAS {o} _ _ _ _ 1; DIVM {q} {i} {r} _ 0 {o}; STOP");
            assert_eq!(after(&notation, values), expected, "{notation}");
            // the same by a number, as large as o's value
            let notation = format!("DIVM {q} {i} {r} _ 1 {}; STOP", values[o]);
            assert_eq!(after(&notation, values), expected, "{notation}");
        }
    }
}

#[test]
fn sizes_are_divided_too() {
    let text = listing("LEAS 17 _ _ _ _ 1; DIVM 0 16 1 _ 0 17; STOP");
    let divided = |trays: usize, results: usize| {
        let ran = run(&text, holding(&[]), &vec![0; trays], &mut vec![0; results], 1);
        [ran.state.registers[0], ran.state.registers[1]]
    };
    assert_eq!(divided(7, 2), [3, 1]);
    assert_eq!(divided(65_536, 1), [65_536, 0]);
    assert_eq!(divided(65_535, 65_536), [0, 65_535]);
    assert_eq!(after("LEAS 16 _ _ _ _ 0; DIVM 3 16 2 _ 1 5; STOP", [1; 4]), [1, 1, 0, 0]);
}

#[test]
fn a_zero_divisor_is_the_error_state() {
    for notation in ["DIVM 0 1 2 _ 0 3; STOP", "DIVM 3 1 2 _ 0 3; STOP", "DIVM 0 1 2 _ 1 0; STOP"] {
        let text = read(&listing(notation)).unwrap();
        assert_eq!(step(&text, &holding(&[1, 1, 1, 0]), &[], &mut []), Step::Error, "{notation}");
    }
}

/// What is known along the edge, for ranges of i and of a variable o.
fn along([q, i, r, o]: [usize; 4], of: [Whole; 2], by: [Whole; 2]) -> Option<Known> {
    let mut known = Known::nothing();
    known.ranges[i] = range(of);
    known.ranges[o] = range(by);
    edges(0, &Instruction::DivMod { q, i, r, o: Operand::Variable(o) }, &known).remove(0).known
}

fn range([lo, hi]: [Whole; 2]) -> Range {
    Range { lo, hi }
}

/// The ranges of quotient and remainder, where all four are apart and wherever only i and o are.
#[track_caller]
fn expect(of: [Whole; 2], by: [Whole; 2], quotient: [Whole; 2], remainder: [Whole; 2]) {
    for pattern @ [q, i, r, o] in patterns().filter(|[_, i, _, o]| i != o) {
        let known = along(pattern, of, by).expect("a step is possible");
        let found = [known.ranges[q], known.ranges[r]];
        assert_eq!(found, [quotient, remainder].map(range), "{of:?} by {by:?}, {pattern:?}");
        for (v, was) in [(i, of), (o, by)] {
            assert!(v == q || v == r || known.ranges[v] == range(was), "{pattern:?}");
        }
    }
}

#[test]
fn ends_of_both_ranges() {
    let max = Whole::from(MAX);
    expect([7, 9], [2, 4], [1, 4], [0, 3]);
    expect([8, 9], [2, 4], [2, 4], [0, 3]);
    expect([7, 7], [2, 2], [3, 3], [0, 1]);
    expect([5, 5], [1, 1], [5, 5], [0, 0]);
    expect([0, 0], [1, max], [0, 0], [0, 0]);
    expect([0, 1], [1, max], [0, 1], [0, 1]);
    expect([0, max], [1, max], [0, max], [0, max - 1]);
    expect([max, max], [max, max], [1, 1], [0, max - 1]);
    expect([max, max], [1, 1], [max, max], [0, 0]);
    expect([max - 1, max], [2, max], [0, (max - 1) / 2], [0, max - 1]);
}

#[test]
fn the_remainders_end_is_the_smaller_of_two() {
    expect([0, 2], [4, 4], [0, 0], [0, 2]);
    expect([0, 3], [4, 4], [0, 0], [0, 3]);
    expect([0, 4], [4, 4], [0, 1], [0, 3]);
    // the greatest divisor counts, not the least
    expect([0, 9], [1, 100], [0, 9], [0, 9]);
    // the least dividend does not
    expect([7, 7], [4, 4], [1, 1], [0, 3]);
}

#[test]
fn a_divisor_that_may_be_zero_counts_as_one_at_the_high_end() {
    expect([7, 9], [0, 4], [1, 9], [0, 3]);
    expect([7, 9], [1, 4], [1, 9], [0, 3]);
}

#[test]
fn a_variable_divided_by_itself() {
    for pattern @ [q, _, r, _] in patterns().filter(|[_, i, _, o]| i == o) {
        let known = along(pattern, [3, 8], [3, 8]).expect("a step is possible");
        assert_eq!([known.ranges[q], known.ranges[r]], [range([0, 2]), range([0, 7])], "{pattern:?}");
    }
    passes("LEAS 1 _ _ _ _ 1; DIVM 1 1 0 _ 0 1; STOP", 2);
}

#[test]
fn no_step_where_the_divisor_can_only_be_zero() {
    for pattern in patterns() {
        assert_eq!(along(pattern, [0, 0], [0, 0]), None, "{pattern:?}");
    }
    // 12 goes before the claims that would follow
    for line in ["DIVM 2 4 3 _ 0 1", "DIVM 1 4 3 _ 0 1", "DIVM 2 4 1 _ 0 1", "DIVM 1 1 2 _ 0 1", "DIVM 2 1 1 _ 0 1"] {
        fails(&format!("MOST 1 _ _ _ _ 0; {line}; LEAS 2 _ _ _ _ 9; STOP"), 12, 2);
    }
}

/// A dividend or a divisor in an empty range, which the step may overwrite, and claims that no result meets.
#[test]
fn nothing_is_owed_of_an_empty_dividend_or_divisor() {
    for [q, i, r, o] in patterns().filter(|[_, i, _, o]| i < o) {
        let divided = |of: [u32; 2], by: [u32; 2]| {
            let least = format!("LEAS {i} _ _ _ _ {}; LEAS {o} _ _ _ _ {};", of[0], by[0]);
            let most = format!("MOST {i} _ _ _ _ {}; MOST {o} _ _ _ _ {};", of[1], by[1]);
            format!("JUMP _ _ _ 0; {least} {most} DIVM {q} {i} {r} _ 0 {o}; LEAS {q} _ _ _ _ 9; STOP")
        };
        claim_fails(&divided([2, 3], [4, 4]), 6, 7);
        passes(&divided([3, 2], [4, 4]), 3);
        claim_fails(&divided([1, 1], [3, 4]), 6, 7);
        passes(&divided([1, 1], [4, 3]), 3);
        passes(&divided([1, 1], [1, 0]), 3);
    }
}

/// Dividend 7 to 9 in register 1, divisor 2 to 4 in register 2, and a line that divides the one by the other.
fn dealt(line: &str, claims: &str) -> String {
    format!("LEAS 1 _ _ _ _ 7; LEAS 2 _ _ _ _ 2; MOST 1 _ _ _ _ 9; MOST 2 _ _ _ _ 4; {line}; {claims} STOP")
}

#[test]
fn claims_at_the_ends_follow_and_tighter_ones_do_not() {
    for (q, r) in [(0, 3), (1, 3), (0, 1), (2, 3), (0, 2), (1, 2), (2, 1)] {
        let line = format!("DIVM {q} 1 {r} _ 0 2");
        let claim = |word: &str, v: i32, value: i32| dealt(&line, &format!("{word} {v} _ _ _ _ {value};"));
        for (word, v, end, tighter) in [("LEAS", q, 1, 2), ("MOST", q, 4, 3), ("LEAS", r, 0, 1), ("MOST", r, 3, 2)] {
            passes(&claim(word, v, end), 2);
            claim_fails(&claim(word, v, tighter), 5, 6);
            let wider = end - (tighter - end);
            if wider >= 0 {
                passes(&claim(word, v, wider), 2);
            }
        }
    }
    // by a number
    passes("DIVM 0 1 2 _ 1 2; MOST 0 _ _ _ _ 2147483647; MOST 2 _ _ _ _ 1; STOP", 2);
    claim_fails("DIVM 0 1 2 _ 1 2; MOST 0 _ _ _ _ 2147483646; MOST 2 _ _ _ _ 1; STOP", 1, 2);
    claim_fails("DIVM 0 1 2 _ 1 2; MOST 0 _ _ _ _ 2147483647; MOST 2 _ _ _ _ 0; STOP", 1, 3);
    passes("DIVM 0 1 2 _ 1 4294967295; MOST 0 _ _ _ _ 1; MOST 2 _ _ _ _ 4294967294; STOP", 2);
    claim_fails("DIVM 0 1 2 _ 1 4294967295; MOST 2 _ _ _ _ 4294967293; STOP", 1, 2);
    // a size has 65,536 bytes at most
    passes("DIVM 0 17 2 _ 1 100000; MOST 0 _ _ _ _ 0; MOST 2 _ _ _ _ 65536; STOP", 2);
    claim_fails("DIVM 0 17 2 _ 1 100000; MOST 0 _ _ _ _ 0; MOST 2 _ _ _ _ 65535; STOP", 1, 3);
    passes("LEAS 17 _ _ _ _ 1; DIVM 0 1 2 _ 0 17; MOST 2 _ _ _ _ 65535; STOP", 2);
    claim_fails("LEAS 17 _ _ _ _ 1; DIVM 0 1 2 _ 0 17; MOST 2 _ _ _ _ 65534; STOP", 2, 3);
}

/// A DIVF with the same fields has other ends.
#[test]
fn the_quotient_is_rounded_down_though_divf_is_not() {
    let dealt = |most: u32| format!("MOST 1 _ _ _ _ 7; DIVM 0 1 2 _ 1 2; MOST 0 _ _ _ _ {most}; STOP");
    passes(&dealt(3), 2);
    claim_fails(&dealt(2), 2, 3);
    let halved = |most: u32| format!("MOST 1 _ _ _ _ 7; DIVF 0 1 _ _ 1 2; MOST 0 _ _ _ _ {most}; STOP");
    claim_fails(&halved(3), 2, 3);
    claim_fails("LEAS 1 _ _ _ _ 7; DIVM 0 1 2 _ 1 2; LEAS 0 _ _ _ _ 4; STOP", 2, 3);
    passes("LEAS 1 _ _ _ _ 7; DIVF 0 1 _ _ 1 2; LEAS 0 _ _ _ _ 4; STOP", 2);
}

/// A remainder is an index into a table as long as the divisor.
#[test]
fn an_access_by_the_remainder() {
    let bucket = |divisor: u32, claims: &str| {
        let size = "LEAS 16 _ _ _ _ 8;";
        format!("{size} DIVM 0 1 2 _ 1 {divisor}; {size} {claims} LOAD 3 1 0 1 2 0; STOP")
    };
    passes(&bucket(8, "MOST 2 _ _ _ _ 7;"), 3);
    claim_fails(&bucket(9, "MOST 2 _ _ _ _ 7;"), 2, 4);
    fails(&bucket(9, "MOST 2 _ _ _ _ 8;"), 13, 5);
}

#[test]
fn stripes_naming_either_register_go_and_others_stay() {
    let stripe = |x, y, z| Stripe { x, a: 1, y, z, b: -5 };
    // q is 1, i is 2, r is 3, o is 4
    for v in 0..VARIABLES {
        let others = [stripe(v, 5, None), stripe(5, v, None), stripe(5, 6, Some(v)), stripe(v, v, Some(v))];
        for [q, i, r, o] in [[1, 2, 3, 4], [1, 1, 3, 4], [1, 3, 3, 4], [1, 2, 3, 1], [1, 2, 3, 3], [1, 3, 3, 1]] {
            let mut before = Known::nothing();
            before.stripes = others.to_vec();
            let instruction = Instruction::DivMod { q, i, r, o: Operand::Variable(o) };
            let after = edges(0, &instruction, &before).remove(0).known.unwrap();
            assert_eq!(after.stripes, if v == q || v == r { vec![] } else { others.to_vec() }, "{v}");
        }
    }
}

#[test]
fn claims_by_stripes_after_a_division() {
    let kept = |line: &str, stripe: &str| format!("LEAS 4 _ _ _ _ 1; {stripe}; {line}; {stripe}; STOP");
    for line in ["DIVM 1 2 3 _ 0 4", "DIVM 1 2 3 _ 1 4", "DIVM 1 1 3 _ 0 4", "DIVM 1 3 3 _ 0 4", "DIVM 3 2 1 _ 0 4"] {
        for stripe in ["STRP 5 1 6 _ _ 3", "STRP 2 1 4 _ _ 3", "STRP 5 1 6 7 _ 3", "STRP 17 4 2 4 _ 3"] {
            passes(&kept(line, stripe), 2);
        }
        for v in [1, 3] {
            claim_fails(&kept(line, &format!("STRP {v} 1 5 _ _ 3")), 3, 4);
            claim_fails(&kept(line, &format!("STRP 5 1 {v} _ _ 3")), 3, 4);
            claim_fails(&kept(line, &format!("STRP 5 1 6 {v} _ 3")), 3, 4);
            claim_fails(&kept(line, &format!("STRP 5 1 {v} 6 _ 3")), 3, 4);
        }
    }
}

/// What divisions make true, and no rule adds.
#[test]
fn no_stripe_is_added() {
    for goal in ["STRP 1 3 0 _ _ 0", "STRP 1 1 0 _ _ 0", "STRP 1 1 2 _ _ 0", "STRP 1 1 0 2 _ 0", "STRP 3 1 2 _ _ 1"] {
        claim_fails(&format!("DIVM 0 1 2 _ 1 3; {goal}; STOP"), 1, 2);
        claim_fails(&format!("LEAS 3 _ _ _ _ 3; DIVM 0 1 2 _ 0 3; {goal}; STOP"), 2, 3);
    }
}

#[test]
fn a_divisor_that_may_be_zero_is_12() {
    fails("DIVM 0 1 2 _ 1 0; STOP", 12, 1);
    fails("DIVM 0 1 2 _ 0 3; STOP", 12, 1);
    fails("DIVM 3 1 2 _ 0 3; STOP", 12, 1);
    fails("DIVM 0 3 3 _ 0 3; STOP", 12, 1);
    fails("DIVM 0 1 2 _ 0 16; STOP", 12, 1);
    fails("MOST 3 _ _ _ _ 9; STRP 3 1 4 _ _ 1; DIVM 0 1 2 _ 0 3; STOP", 12, 3);
    fails("JUMP _ _ _ 2; LEAS 0 _ _ _ _ 1; MOST 0 _ _ _ _ 1; DIVM 1 2 4 _ 0 3; STOP", 12, 4);
    passes("LEAS 3 _ _ _ _ 1; DIVM 0 1 2 _ 0 3; STOP", 2);
    passes("LEAS 16 _ _ _ _ 1; DIVM 0 1 2 _ 0 16; STOP", 2);
    passes("DIVM 0 1 2 _ 1 1; STOP", 2);
    // before the claims of the next point
    fails("DIVM 0 1 2 _ 0 3; LEAS 0 _ _ _ _ 9; STOP", 12, 1);
}

#[test]
fn one_register_for_both_is_19() {
    for register in 0..16 {
        fails(&format!("STOP; DIVM {register} 1 {register} _ 1 2; STOP"), 19, 2);
    }
    fails("DIVM 3 3 3 _ 0 3; STOP", 19, 1);
    // 12, and the claim of the next point, would come after
    fails("DIVM 3 1 3 _ 1 0; LEAS 3 _ _ _ _ 9; STOP", 19, 1);
    let line = format!("FAIL  19{}1\n", " ".repeat(30));
    assert_eq!(printed(&check(&listing("DIVM 3 1 3 _ 1 2; STOP"))).as_slice(), line.as_bytes());
}

#[test]
fn what_goes_before_19_on_its_line() {
    fails("DIVX 3 1 3 _ 1 2; STOP", 3, 1);
    fails("DIVM 3 1 3 0 1 2; STOP", 4, 1);
    fails("DIVM 3 1 3 _ 1; STOP", 4, 1);
    fails("DIVM 3 1 03 _ 1 2; STOP", 4, 1);
    fails("DIVM _ 1 _ _ 1 2; STOP", 4, 1);
    fails("DIVM 3 18 3 _ 1 2; STOP", 5, 1);
    fails("DIVM 3 1 3 _ 2 2; STOP", 5, 1);
    fails("DIVM 3 1 3 _ 0 18; STOP", 5, 1);
    fails("DIVM 3 1 3 _ 1 4294967296; STOP", 5, 1);
    fails("DIVM 16 1 16 _ 1 2; STOP", 5, 1);
    fails("DIVM 3 1 _ _ 1 2; STOP", 4, 1);
}

#[test]
fn nineteen_beside_what_other_lines_have() {
    let both = "DIVM 3 1 3 _ 1 2";
    for (other, number) in [("SETX", 3), ("STOP 0", 4), ("COPY 16 0", 5), ("LEAS 0 _ _ _ _ 1; LEAS 0 _ _ _ _ 1", 6)] {
        fails(&format!("{both}; {other}; STOP"), 19, 1);
        let place = 1 + other.matches(';').count() as u64;
        fails(&format!("{other}; {both}; STOP"), number, place);
    }
    fails(&format!("{both}; {both}; STOP"), 19, 1);
    // out of order right before it
    fails(&format!("MOST 0 _ _ _ _ 1; LEAS 0 _ _ _ _ 1; {both}; STOP"), 6, 2);
    // 7 to 11 look at the whole and come after
    fails(&format!("{both}; STOP; LEAS 0 _ _ _ _ 0"), 19, 1);
    fails(&format!("{}{both}; STOP", "STOP;".repeat(512)), 19, 513);
    fails(&format!("JUMP _ _ _ 5; {both}; STOP"), 19, 2);
    fails(both, 19, 1);
    fails(&format!("LEAS 0 _ _ _ _ 1; MOST 0 _ _ _ _ 0; {both}; STOP"), 19, 3);
}

#[test]
fn claim_lines_are_refused_by_19() {
    let text = listing("LEAS 0 _ _ _ _ 0; STOP; DIVM 3 1 3 _ 1 2; STOP");
    for point in [0, 1, 3, u64::MAX] {
        assert_eq!(claim_span(&text, point), Err(Refusal { number: 19, place: 3, second: 0 }));
    }
    // 12 is not tested for them
    assert_eq!(claim_span(&listing("LEAS 0 _ _ _ _ 0; DIVM 4 1 3 _ 1 0; STOP"), 0), Ok(0..40));
}

#[test]
fn runs_are_refused_by_19() {
    let text = listing("STOP; DIVM 3 1 3 _ 1 2; STOP");
    let long = vec![0; 65_537];
    for (point, trays) in [(0, &[][..]), (3, &[]), (0, &long)] {
        let (state, mut results) = (State { point, registers: [7; 16] }, [5; 3]);
        let refused = Outcome::Refused(Refusal { number: 19, place: 2, second: 0 });
        assert_eq!(run(&text, state, trays, &mut results, 9), Run { outcome: refused, state, steps: 0 });
        assert_eq!(results, [5; 3]);
    }
}

/// Seeds of two bytes a tray, dealt into packets of as many as register 2 says: packets and leftover, two bytes each.
fn packets() -> Vec<u8> {
    let kept = "LEAS 2 _ _ _ _ 1; MOST 2 _ _ _ _ 100;";
    let loaded = format!("{kept} MOST 3 _ _ _ _ 65535;");
    let dealt = format!("{kept} MOST 4 _ _ _ _ 65535; MOST 5 _ _ _ _ 99;");
    let whole = "STRP 16 2 1 _ _ 0; STRP 17 4 1 _ _ 0;";
    let here = "STRP 16 2 0 _ _ 2; STRP 17 4 0 _ _ 4;";
    listing(&format!(
        "{kept} {whole} SETC 0 _ _ _ _ 0; {kept} {whole} BLTU _ 0 _ 3 0 1; STOP;
         {kept} {whole} {here} LOAD 3 2 0 2 0 0; {loaded} {whole} {here} DIVM 4 3 5 _ 0 2;
         {dealt} {whole} {here} STOR 4 2 _ 4 0 0; {dealt} {whole} {here} STOR 5 2 _ 4 0 2;
         {kept} {whole} ADDW 0 0 _ _ 1 1; {kept} {whole} JUMP _ _ _ 1"
    ))
}

const TRAYS: [u16; 4] = [10, 0, 7, 65_535];
const DEALT: [u16; 8] = [2, 2, 0, 0, 1, 3, 16_383, 3];
/// The start, seven for each tray, and the test that ends the loop.
const STEPS: u64 = 1 + 7 * 4 + 1;

fn bytes(numbers: &[u16]) -> Vec<u8> {
    numbers.iter().flat_map(|number| number.to_le_bytes()).collect()
}

#[test]
fn seeds_are_dealt_into_packets() {
    assert_eq!(check(&packets()).points, 9);
    let mut results = vec![7; 18];
    let ran = run(&packets(), holding(&[9, 4, 4]), &bytes(&TRAYS), &mut results, 1_000);
    assert_eq!(ran.outcome, Outcome::Stopped);
    assert_eq!(results, [bytes(&DEALT), vec![7, 7]].concat());
}

#[test]
fn packets_dealt_step_by_step() {
    let (mut state, mut results, mut made) = (holding(&[9, 4, 4]), vec![0; 16], 0);
    loop {
        let ran = run(&packets(), state, &bytes(&TRAYS), &mut results, 1);
        (state, made) = (ran.state, made + ran.steps);
        if ran.outcome == Outcome::Stopped {
            break;
        }
    }
    assert_eq!((state.point, made, results), (2, STEPS, bytes(&DEALT)));
}
