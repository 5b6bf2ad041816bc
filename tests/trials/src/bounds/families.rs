//! The families of listings whose bound is asked for.

use crate::families::{dead_stretches, long_records, turn_lines, ways_back, without_turn, Family};

/// One listing in so many of the checker's families is asked; long listings are rare as they are.
const SHARE: u64 = 40;
const SHARE_OF_LONG: u64 = 8;

/// Families for each thing that a bound depends on, and a share of the checker's families; more than 70,000 listings.
pub fn bound_families() -> Vec<Family> {
    let shares = |family: Family| {
        let share = if family.name == "512 and 513 points" { SHARE_OF_LONG } else { SHARE };
        family.thinned(share)
    };
    let mut families = vec![
        Family::new("nothing goes back", 61, 10_000, ways_back::nothing_back),
        Family::new("loops that count down", 62, 14_000, ways_back::loops),
        Family::new("loops that need nearly all of their bound", 63, 4_000, ways_back::nearly_all_steps),
        Family::new("any greatest value at the start", 64, 4_000, ways_back::greatest_values),
        Family::new("the point just before a way back", 65, 3_000, ways_back::just_before),
        Family::new("targets at and beside a way back", 66, 4_000, ways_back::targets),
        Family::new("everything that writes the TURN register", 67, 5_000, ways_back::writers),
        Family::new("what is taken off, at and beside the least value", 68, 3_000, ways_back::numbers),
        Family::new("other registers and operands of a count", 69, 3_000, ways_back::registers),
        Family::new("branches that go back", 70, 3_000, ways_back::branches),
        Family::new("several ways back", 71, 3_000, ways_back::several),
        Family::new("ways back that nothing reaches", 72, 3_000, ways_back::not_reached),
        Family::new("random blocks under a TURN line", 73, 6_000, ways_back::among_blocks),
        Family::new("TURN on any line", 74, 2_500, turn_lines::any_line),
        Family::new("fields of TURN at and beside their limits", 75, 1_500, turn_lines::fields),
        Family::new("loops that count down, damaged", 76, 250, turn_lines::damaged),
        Family::new("loops that count down, with numbers nudged", 77, 1_500, turn_lines::nudged),
        Family::new(
            "a TURN line, and one register for quotient and remainder",
            80,
            500,
            turn_lines::one_register_twice,
        ),
        Family::new("loops of 512 and 513 points", 78, 160, turn_lines::many_points),
        Family::new("65,520 and 65,560 bytes under a TURN line", 79, 10, turn_lines::many_bytes),
        Family::new("counts and ways back at empty points", 81, 4_000, dead_stretches::in_loops),
        Family::new("loops that count down, with long records", 91, 1_500, long_records::in_loops),
    ];
    families.extend(without_turn().into_iter().map(shares));
    families
}
