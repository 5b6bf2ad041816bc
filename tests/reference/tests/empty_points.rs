//! Points that leave some variable no value: they owe nothing, what leads to them owes their claims, and
//! no run comes to them.

mod answers;

use answers::{claim_fails, fails, passes};
use lines::listing;
use reference::{check, read, run, step, step_bound, Outcome, Refusal, Run, State, Step, VARIABLES};

const MAX: u64 = 4_294_967_295;

/// The greatest value that a claim of the variable may name, and its unclaimed high end.
fn greatest(v: usize) -> u64 {
    if v < 16 {
        MAX
    } else {
        65_536
    }
}

fn least(v: usize, value: u64) -> String {
    format!("LEAS {v} _ _ _ _ {value};")
}

fn most(v: usize, value: u64) -> String {
    format!("MOST {v} _ _ _ _ {value};")
}

/// No value of register 5 is between these, and one is.
const EMPTY: &str = "LEAS 5 _ _ _ _ 3; MOST 5 _ _ _ _ 2;";
const ONE_VALUE: &str = "LEAS 5 _ _ _ _ 3; MOST 5 _ _ _ _ 3;";

/// Point 1 is jumped over and divides by 0 behind these claims.
fn divides_by_0(claims: &str) -> String {
    format!("JUMP _ _ _ 2; {claims} DIVF 0 1 _ _ 1 0; STOP")
}

#[track_caller]
fn is_empty(claims: &str) {
    passes(&divides_by_0(claims), 3);
}

#[track_caller]
fn is_not_empty(claims: &str) {
    let line = 2 + claims.matches(';').count() as u64;
    fails(&divides_by_0(claims), 12, line);
}

#[test]
fn each_variable_can_be_the_empty_one() {
    for v in 0..VARIABLES {
        is_empty(&(least(v, 1) + &most(v, 0)));
        is_not_empty(&(least(v, 1) + &most(v, 1)));
        is_empty(&(least(v, greatest(v)) + &most(v, 0)));
        is_not_empty(&(least(v, 0) + &most(v, greatest(v))));
    }
}

#[test]
fn one_value_is_not_empty_and_one_less_is() {
    for v in 0..VARIABLES {
        for lo in [0, 1, 7, 65_535, greatest(v)] {
            is_not_empty(&(least(v, lo) + &most(v, lo)));
            if lo > 0 {
                is_empty(&(least(v, lo) + &most(v, lo - 1)));
                is_not_empty(&(least(v, lo - 1) + &most(v, lo)));
            }
        }
    }
}

/// A LEAS alone is at most the unclaimed high end: what is above it is 5.
#[test]
fn one_end_alone_is_never_empty() {
    for v in 0..VARIABLES {
        is_not_empty(&least(v, greatest(v)));
        fails(&divides_by_0(&least(v, greatest(v) + 1)), 5, 2);
        is_not_empty(&most(v, 0));
    }
}

/// One variable's LEAS above another's MOST, and one range among many.
#[test]
fn the_ends_are_of_one_variable() {
    for v in 1..VARIABLES {
        is_not_empty(&(least(v, 9) + &most(v - 1, 3)));
        is_not_empty(&(least(v - 1, 9) + &most(v, 3)));
    }
    let all = |odd: usize| {
        let lows: String = (0..VARIABLES).map(|v| least(v, 4)).collect();
        let highs: String = (0..VARIABLES).map(|v| most(v, if v == odd { 3 } else { 4 })).collect();
        lows + &highs
    };
    (0..VARIABLES).for_each(|odd| is_empty(&all(odd)));
    is_not_empty(&all(VARIABLES));
}

#[test]
fn stripes_alone_empty_nothing() {
    let contradictory = [
        "STRP 0 1 0 _ _ 1;",
        "STRP 0 1 1 _ _ 1; STRP 1 1 0 _ _ 1;",
        "STRP 17 1 0 _ _ 65537;",
        "STRP 0 1 1 _ _ 70368744177664;",
        "MOST 5 _ _ _ _ 8; STRP 5 1 6 _ _ 9;",
        "LEAS 5 _ _ _ _ 9; STRP 16 4095 5 _ _ 65536;",
    ];
    for claims in contradictory {
        let line = 2 + claims.matches(';').count() as u64;
        is_not_empty(claims);
        fails(&format!("JUMP _ _ _ 2; {claims} LOAD 0 1 0 1 8 0; STOP"), 13, line);
        claim_fails(&format!("JUMP _ _ _ 3; {claims} COPY 0 1; LEAS 2 _ _ _ _ 9; STOP; STOP"), line, line + 1);
    }
    // beside an empty range, and beside one that is not
    is_empty(&format!("{EMPTY} STRP 5 1 5 _ _ 0;"));
    is_empty(&format!("{EMPTY} STRP 5 1 5 _ _ 1;"));
    is_not_empty(&format!("{ONE_VALUE} STRP 5 1 5 _ _ 1;"));
}

const UNSAFE: [(&str, u64); 10] = [
    ("DIVF 0 1 _ _ 1 0", 12),
    ("DIVF 0 1 _ _ 0 2", 12),
    ("DIVF 0 1 _ _ 0 16", 12),
    ("DIVM 0 1 3 _ 1 0", 12),
    ("DIVM 0 1 3 _ 0 2", 12),
    ("LOAD 0 1 0 1 1 0", 13),
    ("LOAD 0 4 1 4095 1 65535", 13),
    ("LOAD 0 2 0 1 17 0", 13),
    ("STOR 0 1 _ 1 1 0", 13),
    ("STOR 17 4 _ 4095 16 65535", 13),
];

#[test]
fn an_empty_point_owes_no_divisor_and_no_access() {
    for (line, number) in UNSAFE {
        passes(&format!("JUMP _ _ _ 2; {EMPTY} {line}; STOP"), 3);
        fails(&format!("JUMP _ _ _ 2; {ONE_VALUE} {line}; STOP"), number, 4);
        fails(&format!("JUMP _ _ _ 2; {line}; STOP"), number, 2);
    }
}

/// The same where a size is the empty variable, of the table that is read or written or of the other.
#[test]
fn an_access_at_a_point_with_an_empty_size() {
    for (line, size) in [("LOAD 0 1 0 1 1 0", 16), ("LOAD 0 1 1 1 1 0", 17), ("STOR 0 1 _ 1 1 0", 17)] {
        for v in [size, 33 - size] {
            passes(&format!("JUMP _ _ _ 2; {} {} {line}; STOP", least(v, 9), most(v, 8)), 3);
            fails(&format!("JUMP _ _ _ 2; {} {} {line}; STOP", least(v, 9), most(v, 9)), 13, 4);
        }
    }
}

/// Points 2 and 3 have claims that no point shows.
fn leads_on(claims: &str, line: &str) -> String {
    format!("JUMP _ _ _ 4; {claims} {line}; LEAS 2 _ _ _ _ 9; STOP; MOST 3 _ _ _ _ 9; STOP; STOP")
}

#[test]
fn an_empty_point_owes_no_claim_of_its_successors() {
    let lines = [
        ("COPY 0 1", 5),
        ("SETC 2 _ _ _ _ 8", 5),
        // the empty variable is overwritten
        ("SETC 5 _ _ _ _ 8", 5),
        ("STOR 0 1 _ 1 5 0", 5),
        ("JUMP _ _ _ 2", 5),
        ("JUMP _ _ _ 3", 7),
        // both, the next one first
        ("BLTU _ 0 _ 3 0 1", 5),
        ("BEQU _ 5 _ 3 0 1", 5),
        // the target alone is possible
        ("BLTU _ 5 _ 3 1 4", 7),
    ];
    let fits = "LEAS 5 _ _ _ _ 3; LEAS 17 _ _ _ _ 9; MOST 5 _ _ _ _";
    for (line, second) in lines {
        passes(&leads_on(&format!("{fits} 2;"), line), 5);
        claim_fails(&leads_on(&format!("{fits} 3;"), line), 5, second + 1);
    }
}

/// Point 1 is empty, behind a point that shows something; of its four claims, those of register 5 are in the middle.
fn behind(shown: &str, line: &str) -> String {
    format!("{shown} {line}; LEAS 4 _ _ _ _ 0; LEAS 5 _ _ _ _ 3; MOST 5 _ _ _ _ 2; STRP 5 1 5 _ _ 0; STOP; STOP")
}

#[test]
fn the_claims_of_an_empty_point_are_owed() {
    for line in
        ["COPY 0 1", "JUMP _ _ _ 1", "BLTU _ 0 _ 2 0 1", "BLTU _ 0 _ 1 0 1", "BEQU _ 0 _ 2 0 1", "STOR 0 1 _ 1 1 0"]
    {
        let room = "LEAS 17 _ _ _ _ 1; MOST 1 _ _ _ _ 0; STRP 0 1 0 _ _ 0;";
        // neither end, the least value, the greatest
        claim_fails(&behind(room, line), 4, 6);
        claim_fails(&behind(&format!("LEAS 5 _ _ _ _ 3; {room}"), line), 5, 8);
        claim_fails(&behind(&room.replace("STRP", "MOST 5 _ _ _ _ 2; STRP"), line), 5, 7);
    }
    // the target of a branch, which goes past a point that owes nothing
    for line in ["BLTU _ 0 _ 2 0 1", "BEQU _ 0 _ 2 0 1"] {
        claim_fails(&format!("{line}; STOP; {EMPTY} STOP"), 1, 3);
        claim_fails(&format!("LEAS 5 _ _ _ _ 3; {line}; STOP; {EMPTY} STOP"), 2, 5);
    }
}

/// The first claim in the order of lines, be it of the empty variable or not.
#[test]
fn the_first_claim_that_is_not_shown_is_named() {
    claim_fails("JUMP _ _ _ 1; LEAS 2 _ _ _ _ 1; LEAS 5 _ _ _ _ 3; MOST 5 _ _ _ _ 2; STOP", 1, 2);
    claim_fails("JUMP _ _ _ 1; LEAS 2 _ _ _ _ 0; LEAS 5 _ _ _ _ 3; MOST 5 _ _ _ _ 2; STOP", 1, 3);
    claim_fails("LEAS 5 _ _ _ _ 3; JUMP _ _ _ 1; LEAS 5 _ _ _ _ 3; MOST 4 _ _ _ _ 0; MOST 5 _ _ _ _ 2; STOP", 2, 4);
    // the next point goes before the target, and both are empty
    claim_fails(&format!("BLTU _ 0 _ 2 0 1; {EMPTY} STOP; {EMPTY} STOP"), 1, 2);
}

#[test]
fn a_point_that_nothing_leads_to_owes_the_claims_of_an_empty_one() {
    claim_fails(&format!("STOP; COPY 0 1; {EMPTY} STOP"), 2, 3);
    claim_fails(&format!("STOP; {EMPTY} STOP; JUMP _ _ _ 1"), 5, 2);
    passes(&format!("STOP; {EMPTY} COPY 0 1; {EMPTY} STOP"), 3);
}

#[test]
fn an_impossible_edge_shows_the_claims_of_an_empty_point() {
    // into the next point, and one value more
    passes(&format!("MOST 0 _ _ _ _ 4; BLTU _ 0 _ 2 1 5; {EMPTY} STOP; STOP"), 3);
    claim_fails(&format!("MOST 0 _ _ _ _ 5; BLTU _ 0 _ 2 1 5; {EMPTY} STOP; STOP"), 2, 3);
    passes(&format!("MOST 0 _ _ _ _ 0; BEQU _ 0 _ 2 1 0; {EMPTY} STOP; STOP"), 3);
    claim_fails(&format!("MOST 0 _ _ _ _ 1; BEQU _ 0 _ 2 1 0; {EMPTY} STOP; STOP"), 2, 3);
    // into the target
    passes(&format!("LEAS 0 _ _ _ _ 5; BLTU _ 0 _ 2 1 5; STOP; {EMPTY} STOP"), 3);
    claim_fails(&format!("LEAS 0 _ _ _ _ 4; BLTU _ 0 _ 2 1 5; STOP; {EMPTY} STOP"), 2, 4);
    passes(&format!("LEAS 0 _ _ _ _ 1; BEQU _ 0 _ 2 1 0; STOP; {EMPTY} STOP"), 3);
    claim_fails(&format!("BEQU _ 0 _ 2 1 0; STOP; {EMPTY} STOP"), 1, 3);
}

#[test]
fn empty_points_lead_to_empty_points() {
    let other = "LEAS 16 _ _ _ _ 9; MOST 16 _ _ _ _ 1;";
    passes(&format!("JUMP _ _ _ 3; {EMPTY} COPY 0 1; {other} COPY 5 1; STOP"), 4);
    passes(&format!("JUMP _ _ _ 3; {EMPTY} BEQU _ 0 _ 1 0 1; {other} JUMP _ _ _ 1; STOP"), 4);
    claim_fails(&format!("JUMP _ _ _ 3; {ONE_VALUE} COPY 0 1; {other} COPY 5 1; STOP"), 4, 5);
}

#[test]
fn an_empty_point_leads_to_itself_and_to_point_0() {
    passes(&format!("JUMP _ _ _ 2; {EMPTY} JUMP _ _ _ 1; STOP"), 3);
    passes(&format!("JUMP _ _ _ 2; {EMPTY} BLTU _ 0 _ 1 0 1; STOP"), 3);
    passes(&format!("STOP; {EMPTY} JUMP _ _ _ 1"), 2);
    passes(&format!("LEAS 2 _ _ _ _ 9; STOP; {EMPTY} JUMP _ _ _ 0"), 2);
    claim_fails(&format!("LEAS 2 _ _ _ _ 9; STOP; {ONE_VALUE} JUMP _ _ _ 0"), 5, 1);
}

#[test]
fn an_empty_point_0_is_turned_back() {
    for v in 0..VARIABLES {
        fails(&format!("{} {} STOP", least(v, 1), most(v, 0)), 11, 3);
        fails(&format!("{} {} JUMP _ _ _ 0", least(v, greatest(v)), most(v, greatest(v) - 1)), 11, 3);
        passes(&format!("{} {} STOP", least(v, 1), most(v, 1)), 1);
        passes(&format!("{} STOP", least(v, greatest(v))), 1);
    }
    // before anything that it would owe
    fails(&format!("{EMPTY} DIVF 0 1 _ _ 1 0; STOP"), 11, 3);
    fails(&format!("{EMPTY} COPY 0 1; LEAS 2 _ _ _ _ 9; STOP"), 11, 3);
    // before what other points owe, and beside empty ones
    fails(&format!("{EMPTY} STOP; DIVF 0 1 _ _ 1 0; STOP"), 11, 3);
    fails(&format!("{EMPTY} JUMP _ _ _ 2; {EMPTY} COPY 0 1; STOP"), 11, 3);
    fails(&format!("{EMPTY} STRP 0 1 0 _ _ 1; STOP"), 11, 4);
    passes("STRP 0 1 0 _ _ 1; STOP", 1);
}

/// Unsafe instructions one after the other, each at an empty point, and a jump over them all.
#[test]
fn a_dead_stretch_is_jumped_over() {
    let stretch = |from: usize, odd: Option<usize>| -> String {
        let claims = |at: usize| if odd == Some(at) { ONE_VALUE } else { EMPTY };
        (from..500).map(|at| format!("{} {};", claims(at), UNSAFE[at % UNSAFE.len()].0)).collect()
    };
    passes(&format!("JUMP _ _ _ 500; {} STOP", stretch(1, None)), 501);
    for at in [1, 17, 499] {
        // the line of its instruction
        let place = 1 + 3 * at as u64;
        fails(&format!("JUMP _ _ _ 500; {} STOP", stretch(1, Some(at))), UNSAFE[at % UNSAFE.len()].1, place);
    }
    claim_fails(&format!("JUMP _ _ _ 500; COPY 0 1; {} STOP", stretch(2, None)), 2, 3);
}

#[test]
fn the_lines_of_empty_points_are_read() {
    let with = |claims: &str, line: &str| format!("JUMP _ _ _ 2; {claims} {line}; STOP");
    for (line, number) in [
        ("COPX 0 1", 3),
        ("COPY 0 01", 4),
        ("COPY 16 1", 5),
        ("DIVM 0 1 0 _ 1 2", 19),
        ("TURN 0", 6),
        ("LEAS 0 _ _ _ _ 0", 6),
        ("JUMP _ _ _ 3", 9),
    ] {
        fails(&with(EMPTY, line), number, 4);
    }
    fails(&with("LEAS 5 _ _ _ _ 3; MOST 5 _ _ _ _ 2; MOST 5 _ _ _ _ 2;", "STOP"), 6, 4);
    fails(&with(&format!("{EMPTY} {}", "STRP 0 1 0 _ _ 0;".repeat(9)), "STOP"), 6, 12);
    let mut text = listing(&with(EMPTY, "COPY 0 1"));
    text[3 * 40 + 20] = 200;
    assert_eq!((check(&text).number, check(&text).place), (2, 4));
    assert_eq!((check(&text[1..]).number, check(&text[1..]).place), (1, 0));
}

#[test]
fn the_last_point_may_be_empty_and_is_tested_over_the_whole() {
    fails(&format!("STOP; {EMPTY}"), 7, 3);
    fails(&format!("STOP; {EMPTY} COPY 0 1"), 10, 4);
    fails(&format!("STOP; {EMPTY} BEQU _ 0 _ 0 0 1"), 10, 4);
    passes(&format!("STOP; {EMPTY} STOP"), 2);
    passes(&format!("{} {EMPTY} STOP", "STOP;".repeat(511)), 512);
    fails(&format!("{} {EMPTY} STOP", "STOP;".repeat(512)), 8, 515);
}

/// A loop over the results around a dead stretch, on lines of its own: points 3 and 4 are empty.
fn around_a_dead_stretch() -> Vec<u8> {
    let s = "STRP 17 4 1 _ _ 0;";
    let q = "STRP 17 4 0 _ _ 4;";
    listing(&format!(
        "{s} SETC 0 _ _ _ _ 0; {s} BLTU _ 0 _ 5 0 1; STOP;
         {EMPTY} STOR 0 4 _ 4095 1 65535; {EMPTY} DIVF 5 1 _ _ 1 0;
         {s} {q} STOR 2 4 _ 4 0 0; {s} ADDW 0 0 _ _ 1 1; {s} JUMP _ _ _ 1"
    ))
}

fn at(point: u64, first: [u32; 6]) -> State {
    let mut state = State { point, registers: [0; 16] };
    state.registers[..6].copy_from_slice(&first);
    state
}

#[test]
fn a_state_at_an_empty_point_is_turned_back() {
    let text = around_a_dead_stretch();
    assert_eq!(check(&text).points, 8);
    for point in [3, 4] {
        for value in [0, 1, 2, 3, 4, u32::MAX] {
            for budget in [0, 1, u32::MAX] {
                let (state, mut results) = (at(point, [value; 6]), [9; 8]);
                let refused = Outcome::Refused(Refusal { number: 17, place: 0, second: 0 });
                let ran = run(&text, state, &[0; 8], &mut results, budget);
                assert_eq!((ran, results), (Run { outcome: refused, state, steps: 0 }, [9; 8]));
            }
        }
    }
    // also where the point is STOP
    let stop = listing(&format!("STOP; {EMPTY} STOP"));
    let ran = run(&stop, at(1, [3; 6]), &[], &mut [], 0);
    assert_eq!(ran.outcome, Outcome::Refused(Refusal { number: 17, place: 0, second: 0 }));
}

/// From every state that its point admits, in single runs of one step: no state on the way stands at an empty point.
#[test]
fn no_run_comes_to_an_empty_point() {
    let text = around_a_dead_stretch();
    let listing = read(&text).expect("it passes");
    let (mut looked_at, mut accepted) = (0, 0);
    for (point, count) in (0..8).flat_map(|point| (0..4).map(move |count| (point, count))) {
        let (mut state, mut results) = (at(point, [0, count, 7, 0, 0, 3]), vec![0; 8]);
        for _ in 0..20 {
            let before = results.clone();
            let ran = run(&text, state, &[], &mut results, 1);
            if matches!(ran.outcome, Outcome::Refused(_)) {
                break;
            }
            accepted += 1;
            for stood in [state, ran.state] {
                assert!(!listing.points[stood.point as usize].is_empty(), "{stood:?}");
                looked_at += 1;
            }
            if ran.steps == 1 {
                assert_eq!(step(&listing, &state, &[], &mut before.clone()), Step::Moved(ran.state));
            }
            state = ran.state;
        }
    }
    assert!(looked_at > 300 && accepted > 150, "{looked_at} states of {accepted} runs");
}

fn bounded(notation: &str, bound: u64) {
    assert_eq!(step_bound(&listing(notation)), Ok(bound), "{notation}");
}

fn unbounded(notation: &str, place: u64) {
    assert_eq!(step_bound(&listing(notation)), Err(Refusal { number: 20, place, second: 0 }), "{notation}");
}

/// Ways back are looked at by the text.
#[test]
fn an_empty_point_that_goes_back_counts() {
    unbounded(&format!("STOP; {EMPTY} JUMP _ _ _ 0"), 4);
    unbounded(&format!("STOP; {EMPTY} JUMP _ _ _ 1"), 4);
    unbounded(&format!("STOP; {EMPTY} BEQU _ 0 _ 0 0 1; STOP"), 4);
    bounded(&format!("STOP; {EMPTY} JUMP _ _ _ 2; STOP"), 3);
    // covered by the count before it, which is empty itself
    let counted = |claims: &str, number: u64| {
        format!("TURN 5; MOST 5 _ _ _ _ 9; STOP; {claims} SUBW 5 5 _ _ 1 {number}; {EMPTY} JUMP _ _ _ 0")
    };
    bounded(&counted(EMPTY, 3), 3 * 10);
    bounded(&counted("LEAS 4 _ _ _ _ 1; LEAS 5 _ _ _ _ 1; MOST 4 _ _ _ _ 0;", 1), 3 * 10);
    unbounded(&counted("LEAS 4 _ _ _ _ 1; MOST 4 _ _ _ _ 0;", 1), 9);
    // the least value is the point's own
    unbounded(&counted(EMPTY, 4), 9);
    unbounded(&counted(EMPTY, 0), 9);
}

/// A loop that counts register 3 down, with a JUMP at point 3 on line 7, and more behind its STOP.
fn loop_with(rest: &str) -> String {
    format!(
        "TURN 3; MOST 3 _ _ _ _ 9; COPY 1 2; BLTU _ 3 _ 4 1 2; LEAS 3 _ _ _ _ 2; SUBW 3 3 _ _ 1 2; JUMP _ _ _ 1; STOP;
         {rest} STOP"
    )
}

#[test]
fn writers_and_targets_at_empty_points_count() {
    let least_2 = "LEAS 3 _ _ _ _ 2; MOST 3 _ _ _ _ 1;";
    bounded(&loop_with(&format!("{least_2} SUBW 3 3 _ _ 1 2;")), 7 * 10);
    unbounded(&loop_with(&format!("{least_2} SUBW 3 3 _ _ 1 3;")), 7);
    unbounded(&loop_with(&format!("{EMPTY} SUBW 3 3 _ _ 1 1;")), 7);
    for line in ["SETC 3 _ _ _ _ 0", "COPY 3 3", "DIVF 3 3 _ _ 1 0", "DIVM 4 3 3 _ 1 0", "LOAD 3 1 0 1 1 0"] {
        unbounded(&loop_with(&format!("{least_2} {line};")), 7);
        bounded(
            &loop_with(&format!("{least_2} {};", line.replacen(" 3 ", " 6 ", 1).replace("DIVM 4 6 3", "DIVM 4 6 7"))),
            70,
        );
    }
    // a jump from an empty point to the way back
    unbounded(&loop_with(&format!("{EMPTY} JUMP _ _ _ 3;")), 7);
    unbounded(&loop_with(&format!("{EMPTY} BLTU _ 0 _ 3 0 1;")), 7);
    // and back over it, which is a way back of its own
    unbounded(&loop_with(&format!("{EMPTY} JUMP _ _ _ 4;")), 11);
}
