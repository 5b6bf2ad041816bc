//! The families of listings. Each is made of batches, and each batch comes from a seed of its own, so that any
//! listing can be made again from the family and the batch.

mod columns;
pub(crate) mod damage;
pub(crate) mod dead_stretches;
pub(crate) mod empty_points;
pub(crate) mod far_bounds;
pub(crate) mod limits;
pub(crate) mod long_records;
pub(crate) mod nudges;
pub(crate) mod pieces;
pub(crate) mod probes;
pub(crate) mod quotients;
pub(crate) mod remainders;
mod routines;
pub(crate) mod turn_lines;
pub(crate) mod turns;
pub(crate) mod ways_back;

pub use routines::{dealing, guarded_loop, routine, Loop};

use crate::random::Random;

pub struct Family {
    pub name: &'static str,
    seed: u64,
    pub batches: u64,
    make: fn(&mut Random) -> Vec<Vec<u8>>,
}

impl Family {
    pub(crate) fn new(name: &'static str, seed: u64, batches: u64, make: fn(&mut Random) -> Vec<Vec<u8>>) -> Family {
        Family { name, seed, batches, make }
    }

    pub fn batch(&self, batch: u64) -> Vec<Vec<u8>> {
        let seed = Random::new(self.seed.wrapping_mul(1_000_003).wrapping_add(batch)).draw();
        (self.make)(&mut Random::new(seed))
    }

    /// The same family with a share of its batches, for runs that cannot wait.
    pub fn thinned(mut self, divisor: u64) -> Family {
        self.batches = self.batches.div_ceil(divisor);
        self
    }
}

/// Listings of one line, each of them made once: every content of a field's columns. Their answers are few, so that they
/// are not counted among the others.
pub fn of_columns() -> Vec<Family> {
    vec![
        Family::new("four columns of F1 to F5, every content over six bytes", 31, 1, columns::short),
        Family::new("fifteen columns of F6, every byte of six in every column", 32, 1, columns::long),
    ]
}

/// Every family of the comparison; together more than 550,000 listings.
pub fn all() -> Vec<Family> {
    without_turn().into_iter().chain(under_turn()).collect()
}

/// Families without TURN lines.
pub(crate) fn without_turn() -> Vec<Family> {
    of_points().into_iter().chain(of_empty_points()).chain(of_long_records()).collect()
}

/// Families with TURN lines.
fn under_turn() -> Vec<Family> {
    vec![
        Family::new("loops that count down", 41, 4_000, ways_back::loops),
        Family::new("loops that count down, one thing changed", 42, 4_000, ways_back::any_change),
        Family::new("random blocks under a TURN line", 43, 3_000, ways_back::among_blocks),
        Family::new("TURN on any line", 44, 4_000, turn_lines::any_line),
        Family::new("fields of TURN at and beside their limits", 45, 2_000, turn_lines::fields),
        Family::new("loops that count down, damaged", 46, 250, turn_lines::damaged),
        Family::new("loops that count down, with numbers nudged", 47, 1_000, turn_lines::nudged),
        Family::new("loops of 512 and 513 points", 48, 40, turn_lines::many_points),
        Family::new("loops that count down, with dead stretches", 50, 1_500, dead_stretches::in_loops),
        Family::new(
            "a TURN line, and one register for quotient and remainder",
            49,
            500,
            turn_lines::one_register_twice,
        ),
    ]
}

/// Families for reading, for what a step does to claims, and for what is owed.
fn of_points() -> Vec<Family> {
    vec![
        Family::new("routines that pass, with loops and stripes", 1, 14_000, routines::passing),
        Family::new("routines with one field nudged", 2, 8_000, nudges::nudged),
        Family::new("routines with one claim dropped, doubled or moved", 3, 3_000, nudges::rearranged),
        Family::new("one edge, claims at and beside what follows", 4, 70_000, probes::one_edge),
        Family::new("chains of one to four links", 5, 16_000, probes::chain),
        Family::new("accesses at and beside the end of a table", 6, 14_000, probes::access),
        Family::new("a few random points over few variables", 7, 24_000, probes::jumble),
        Family::new("stripe bounds shifted at their limits", 8, 6_000, probes::shifted),
        Family::new("quotients of one value by one value", 17, 10_000, quotients::of_values),
        Family::new("quotients of ranges, claims at and beside their ends", 18, 16_000, quotients::of_ranges),
        Family::new("damaged text", 9, 6_000, damage::damaged),
        Family::new("two damages at once", 10, 2_000, damage::damaged_twice),
        Family::new("fields at and beside their limits", 11, 8_000, limits::fields),
        Family::new("eight and nine stripes, order of claims", 12, 2_000, limits::claim_order),
        Family::new("512 and 513 points", 13, 1_000, limits::many_points),
        Family::new("65,520 and 65,560 bytes", 14, 60, limits::many_bytes),
        Family::new("remainders of one value by one value", 31, 14_000, remainders::of_values),
        Family::new("remainders of ranges, claims at and beside their ends", 32, 24_000, remainders::of_ranges),
        Family::new("remainders with stripes, claims at and beside what follows", 33, 16_000, remainders::of_stripes),
        Family::new("a few random points, some with remainders", 34, 8_000, remainders::among_points),
        Family::new("routines that divide with remainder", 35, 3_000, routines::dealing_passing),
        Family::new("routines that divide with remainder, one field nudged", 36, 500, nudges::dealing_nudged),
        Family::new("one register for quotient and remainder", 37, 6_000, damage::one_register_twice),
        Family::new("fields of DIVM at and beside their limits", 38, 3_000, limits::fields_of_div_mod),
    ]
}

/// Families with points whose ranges are empty for some variable.
fn of_empty_points() -> Vec<Family> {
    vec![
        Family::new("one point, empty or nearly so", 51, 12_000, empty_points::one_point),
        Family::new("an empty range that the step overwrites", 15, 4_000, empty_points::overwritten),
        Family::new("what leads to an empty point", 52, 12_000, empty_points::led_to),
        Family::new("a few random points, some empty", 53, 5_000, empty_points::among_points),
        Family::new("point 0 empty or nearly so", 54, 2_500, empty_points::at_point_0),
        Family::new("dead stretches that are led around", 55, 5_000, dead_stretches::skipped),
        Family::new("dead stretches with a flaw", 56, 4_000, dead_stretches::flawed),
        Family::new("routines with dead stretches", 57, 3_000, dead_stretches::in_routines),
        Family::new("routines with dead stretches, one field nudged", 58, 400, dead_stretches::nudged),
        Family::new("dead stretches, damaged", 59, 250, dead_stretches::damaged),
        Family::new("dead stretches of 512 and 513 points", 60, 200, dead_stretches::many_points),
    ]
}

/// Families with scales and bounds at and beside their limits.
fn of_long_records() -> Vec<Family> {
    vec![
        Family::new("stripes of any scale", 82, 6_000, long_records::stripes),
        Family::new("products by factors at and beside a scale", 83, 8_000, long_records::products),
        Family::new("accesses of any scale at the end of a table", 84, 8_000, long_records::accesses),
        Family::new("addresses that a narrow number would wrap", 85, 8_000, long_records::addresses),
        Family::new("bounds written at and beside their ends", 86, 7_000, far_bounds::written),
        Family::new("bounds shifted to their ends and past them", 87, 16_000, far_bounds::shifted),
        Family::new("goals that links carry beyond the limits", 88, 12_000, far_bounds::far_goals),
        Family::new("routines over long records", 89, 2_000, long_records::routines),
        Family::new("routines over long records, one field nudged", 90, 400, long_records::nudged),
    ]
}
