//! The worked listings C1 to C10 with their variants, and what the runner makes of C3 and C7.

use lines::listing;
use reference::{check, claim_lines, claim_span, printed, run, Answer, Outcome, Refusal, State};

const MAX: u32 = u32::MAX;

fn pass(points: u64) -> Answer {
    Answer { number: 0, place: 0, second: 0, points }
}

fn fail(number: u64, place: u64) -> Answer {
    Answer { number, place, second: 0, points: 0 }
}

fn claim_fails(place: u64, second: u64) -> Answer {
    Answer { number: 14, place, second, points: 0 }
}

fn at(point: u64, registers: &[u32]) -> State {
    let mut state = State { point, registers: [0; 16] };
    state.registers[..registers.len()].copy_from_slice(registers);
    state
}

fn c4(before_division: &str) -> Vec<u8> {
    let start = "LEAS 16 _ _ _ _ 4; MOST 1 _ _ _ _ 0; LOAD 2 2 0 1 1 0;";
    listing(&format!("{start} {before_division} DIVF 3 4 _ _ 0 2; STOP"))
}

fn c6(room_at_store: u32) -> Vec<u8> {
    let s = "STRP 17 4 1 _ _ 0;";
    let q = format!("STRP 17 4 0 _ _ {room_at_store};");
    listing(&format!(
        "{s} SETC 0 _ _ _ _ 0; {s} BLTU _ 0 _ 3 0 1; STOP; {s} {q} STOR 2 4 _ 4 0 0;
         {s} ADDW 0 0 _ _ 1 1; {s} JUMP _ _ _ 1"
    ))
}

fn c8(added: u32) -> Vec<u8> {
    let start = format!("SETC 0 _ _ _ _ {MAX}; LEAS 0 _ _ _ _ {MAX};");
    listing(&format!("{start} ADDW 0 0 _ _ 1 {added}; LEAS 0 _ _ _ _ 1; STOP"))
}

#[test]
fn c1_an_empty_listing() {
    assert_eq!(check(b""), fail(1, 0));
    assert_eq!(&printed(&check(b"")), b"FAIL   1                              0\n");
}

#[test]
fn c2_a_lone_stop() {
    assert_eq!(check(&listing("STOP")), pass(1));
}

#[test]
fn c3_a_jump_to_itself() {
    let listing = listing("JUMP _ _ _ 0");
    assert_eq!(check(&listing), pass(1));
    let run = run(&listing, at(0, &[]), &[], &mut [], 5);
    assert_eq!((run.outcome, run.state, run.steps), (Outcome::Paused, at(0, &[]), 5));
}

#[test]
fn c4_an_unguarded_division() {
    assert_eq!(check(&c4("")), fail(12, 4));
    let line = format!("FAIL  12{}4\n", " ".repeat(30));
    assert_eq!(printed(&check(&c4(""))).as_slice(), line.as_bytes());
}

#[test]
fn c5_a_guarded_division() {
    let guarded = c4("BEQU _ 2 _ 3 1 0; LEAS 2 _ _ _ _ 1;");
    assert_eq!(check(&guarded), pass(4));
    let line = format!("PASS{}4\n", " ".repeat(34));
    assert_eq!(printed(&check(&guarded)).as_slice(), line.as_bytes());
}

#[test]
fn c6_a_loop_with_room_for_every_store() {
    assert_eq!(check(&c6(4)), pass(6));
    assert_eq!(check(&c6(5)), claim_fails(4, 7));
    assert_eq!(&printed(&check(&c6(5))), b"FAIL  14               7              4\n");
    assert_eq!(check(&c6(3)), fail(13, 8));
}

#[test]
fn c7_the_loop_of_c6_run() {
    let mut results = [0; 8];
    let run_it = |registers: &[u32], results: &mut [u8]| run(&c6(4), at(0, registers), &[], results, 10);
    let ran = run_it(&[0, 2, 7], &mut results);
    assert_eq!((ran.outcome, ran.steps), (Outcome::Stopped, 10));
    assert_eq!(ran.state, at(2, &[2, 2, 7]));
    assert_eq!(results, [7, 0, 0, 0, 7, 0, 0, 0]);

    let mut untouched = [9; 8];
    let refused = run_it(&[0, 3, 7], &mut untouched);
    let refusal = Refusal { number: 17, place: 0, second: 0 };
    assert_eq!((refused.outcome, refused.steps), (Outcome::Refused(refusal), 0));
    assert_eq!((refused.state, untouched), (at(0, &[0, 3, 7]), [9; 8]));
}

#[test]
fn c7_in_pieces_is_c7_at_once() {
    let mut results = [0; 8];
    let mut state = at(0, &[0, 2, 7]);
    let mut outcomes = Vec::new();
    for budget in [0, 1, 3, 2, 4, 0] {
        let piece = run(&c6(4), state, &[], &mut results, budget);
        assert_eq!(piece.steps, u64::from(budget));
        outcomes.push(piece.outcome);
        state = piece.state;
    }
    assert_eq!(state, at(2, &[2, 2, 7]));
    assert_eq!(results, [7, 0, 0, 0, 7, 0, 0, 0]);
    use Outcome::{Paused, Stopped};
    assert_eq!(outcomes, [Paused, Paused, Paused, Paused, Stopped, Stopped]);
}

#[test]
fn c8_an_increment_that_wraps() {
    assert_eq!(check(&c8(1)), claim_fails(3, 4));
    assert_eq!(check(&c8(0)), pass(3));
}

#[test]
fn c9_an_address_beyond_32_bits() {
    let claims = "LEAS 1 _ _ _ _ 1073741824; LEAS 16 _ _ _ _ 4; MOST 1 _ _ _ _ 1073741824;";
    assert_eq!(check(&listing(&format!("{claims} LOAD 0 4 0 4 1 0; STOP"))), fail(13, 4));
}

#[test]
fn c10_a_division_that_is_never_reached() {
    let listing = listing("JUMP _ _ _ 2; LEAS 0 _ _ _ _ 1; MOST 0 _ _ _ _ 0; DIVF 1 2 _ _ 0 3; STOP");
    assert_eq!(check(&listing), pass(3));
    assert_eq!(printed(&check(&listing)).as_slice(), format!("PASS{}3\n", " ".repeat(34)).as_bytes());
}

#[test]
fn claim_lines_are_a_part_of_the_listing() {
    let c6 = c6(4);
    let part = claim_lines(&c6, 3).unwrap();
    assert_eq!(part, &c6[5 * 40..7 * 40]);
    assert_eq!(part.as_ptr(), c6[5 * 40..].as_ptr());
    assert_eq!(claim_lines(&c6, 2), Ok(&[][..]));
    assert_eq!(claim_lines(&c6, 6).unwrap_err().number, 16);
    assert_eq!(claim_lines(&c6[..40], 0).unwrap_err().number, 7);
    // of equal claim lines, the point's own
    assert_eq!(claim_span(&c6, 0), Ok(0..40));
    assert_eq!(claim_span(&c6, 1), Ok(2 * 40..3 * 40));
    assert_eq!(claim_span(&c6, 2), Ok(4 * 40..4 * 40));
    assert_eq!(claim_span(&c6, u64::MAX), Err(Refusal { number: 16, place: 0, second: 0 }));
    // 12 to 14 are not tested for claim lines
    assert_eq!(claim_lines(&c4(""), 0), Ok(&c4("")[..80]));
}
