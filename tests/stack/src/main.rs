//! How much stack the calls of the static library take at their deepest: each runs on a thread whose stack was filled
//! with one byte before, and the bytes that are no longer so are counted.

mod painted;

use archive::{check, claim_part, print_bound, printed, run, run_in_place, set_line, step_bound, Field, State};
use lines::listing;
use painted::stack_of;
use std::hint::black_box;
use trials::families::routine;
use trials::random::Random;

const ROUTINES: u64 = 40;
const BUDGET: u32 = 1000;
/// Loops of three points, before the last point.
const MOST_LOOPS: usize = (512 - 1) / 3;

/// The listings: the smallest, one turned back by its text, one with goals that take all links, the longest, routines,
/// and loops with a bound.
fn listings() -> Vec<Vec<u8>> {
    let mut listings = vec![vec![], listing("STOP"), listing("STOP").repeat(1638), vec![b'?'; 65_520], links()];
    listings.extend((0..ROUTINES).map(|seed| routine(&mut Random::new(seed)).text()));
    listings.push(full());
    listings.push(counted());
    listings
}

/// Goals that follow by three links, each found last.
fn links() -> Vec<u8> {
    let links = "STRP 1 1 1 _ _ -9; STRP 2 1 2 _ _ -9; STRP 3 1 3 _ _ -9; STRP 1 1 0 _ _ 0; STRP 2 1 1 _ _ 0;
                 STRP 3 1 2 _ _ 0; STRP 17 4 3 _ _ 4;";
    listing(&format!("{links} STOR 2 4 _ 4 0 0; STRP 17 4 0 _ _ 4; STRP 17 4 1 _ _ 4; JUMP _ _ _ 1"))
}

/// 512 points with claims, in a loop that stores.
fn full() -> Vec<u8> {
    let kept = "STRP 17 1 1 _ _ 4;";
    let point = listing(&format!("{kept} STOR 2 4 _ 1 1 0;"));
    let last = listing(&format!("{kept} JUMP _ _ _ 0"));
    [point.repeat(511), last].concat()
}

/// As many loops as fit, each counting the TURN register down: all ways back are covered.
fn counted() -> Vec<u8> {
    let one = |head: usize| {
        let end = head + 3;
        listing(&format!("BEQU _ 1 _ {end} 1 0; LEAS 1 _ _ _ _ 1; SUBW 1 1 _ _ 1 1; JUMP _ _ _ {head}"))
    };
    let loops: Vec<u8> = (0..MOST_LOOPS).flat_map(|at| one(3 * at)).collect();
    [listing("TURN 1"), loops, listing("STOP")].concat()
}

/// The greatest stack over all listings.
fn greatest<T>(call: impl Fn(&[u8]) -> T + Sync) -> usize {
    let on = |listing: &Vec<u8>| {
        stack_of(&|| {
            black_box(call(listing));
        })
    };
    listings().iter().map(on).max().unwrap_or(0)
}

/// The longest numbers that a line may have.
const WIDEST: [Field; 6] = [
    Field::Number(17),
    Field::Number(4_095),
    Field::Number(17),
    Field::Number(17),
    Field::Blank,
    Field::Negative(70_368_744_177_664),
];

fn set_widest() {
    let mut line = [0; 40];
    assert_eq!(set_line(&mut line, 1, b"STRP", black_box(WIDEST)), Ok(()));
    black_box(line);
}

fn main() {
    for deep in [links(), full()] {
        assert_eq!(check(&deep).number, 0, "the deep listings pass");
    }
    assert_eq!(step_bound(&counted()).number, 0, "the loops have a bound");
    let state = State { point: 0, registers: [0; 16] };
    let in_place = |listing: &[u8]| {
        let mut state = state;
        run_in_place(listing, &mut state, &[7; 64], &mut [0; 64], BUDGET)
    };
    println!("bytes of stack, the greatest over {} listings", listings().len());
    println!("{:>8} check", greatest(check));
    println!("{:>8} step_bound", greatest(step_bound));
    println!("{:>8} print", greatest(printed));
    println!("{:>8} print_bound", greatest(print_bound));
    println!("{:>8} claim_lines", greatest(|listing| claim_part(listing, 0)));
    println!("{:>8} set_line, the widest numbers", stack_of(&set_widest));
    println!("{:>8} run", greatest(|listing| run(listing, state, &[7; 64], &mut [0; 64], BUDGET)));
    println!("{:>8} run_in_place", greatest(in_place));
}
