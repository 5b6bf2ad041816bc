//! Times the proved checker, step bound, setter and runner against the twin in plain Rust, in the same process and in
//! turns, and prints ratios.

mod listings;
mod rows;
mod runs;
mod set_lines;
mod timing;

use listings::{
    half_empty, long_records, longest, remainders, small, small_bounded, typical, typical_bounded, worst, KeyLink,
};
use reference::refusals::RUNS_OFF_THE_END;
use rows::{print_row, Rows};
use timing::ratio;

/// The number of a listing that passes.
const PASSES: u64 = 0;
/// The point whose claim lines are asked for; which one it is does not matter to the time.
const POINT_ASKED: usize = 400;

/// A word as the argument prints only the rows whose names contain it.
fn main() {
    let mut rows = Rows::with(std::env::args().nth(1).unwrap_or_default());
    println!("the archive against the twin: microseconds for one call in the fastest round, and the ratio over");
    println!("all rounds, least, middle and greatest");
    print_checks(&mut rows);
    print_checks_by_points(&mut rows);
    print_step_bounds(&mut rows);
    print_claim_lines(&mut rows);
    set_lines::print_set_lines(&mut rows);
    runs::print_runs(&mut rows);
}

fn print_checks(rows: &mut Rows) {
    let listings = [
        ("reading 1,638 lines", longest("COPY 0 0"), RUNS_OFF_THE_END),
        ("small, 6 points", small(), PASSES),
        ("typical, 500 points", typical(500), PASSES),
        ("worst, links all over, key link tried first", worst(KeyLink::First, false), PASSES),
        ("worst, links all over, key link tried last", worst(KeyLink::Last, false), PASSES),
        ("worst, equal links, key link tried first", worst(KeyLink::First, true), PASSES),
        ("worst, equal links, key link tried last", worst(KeyLink::Last, true), PASSES),
        ("remainders, 376 points", remainders(), PASSES),
        ("half of the points empty, 512 points", half_empty(512), PASSES),
        ("records of 300 bytes, 500 points", long_records(500), PASSES),
    ];
    rows.table("listings", "lines");
    for (name, listing, expected) in &listings {
        if rows.want(name) {
            print_check(name, listing, *expected);
        }
    }
}

fn print_checks_by_points(rows: &mut Rows) {
    rows.table("typical listings by points", "lines");
    for points in [64, 128, 256, 512] {
        let name = format!("typical, {points} points");
        if rows.want(&name) {
            print_check(&name, &typical(points), PASSES);
        }
    }
}

/// Both checkers give the expected answer before they are timed.
fn print_check(name: &str, listing: &[u8], expected: u64) {
    assert_eq!(twin::check(listing).number, expected, "{name}: the twin");
    assert_eq!(archive::check(listing).number, expected, "{name}: the archive");
    let measured = ratio(&|| archive::check(listing).place, &|| twin::check(listing).place);
    print_row(name, listing.len() / lines::LINE, &measured);
}

fn print_step_bounds(rows: &mut Rows) {
    let listings = [("bound, small, 6 points", small_bounded()), ("bound, typical, 512 points", typical_bounded(512))];
    rows.table("bounds on steps, each with its check", "lines");
    for (name, listing) in &listings {
        if rows.want(name) {
            print_step_bound(name, listing);
        }
    }
}

/// Both give the same bound, with loops, before they are timed.
fn print_step_bound(name: &str, listing: &[u8]) {
    let bound_by_twin = || twin::step_bound(listing).unwrap_or(0);
    let (one, other) = (archive::step_bound(listing), bound_by_twin());
    assert_eq!((one.number, one.bound), (PASSES, other), "{name}: {one:?}");
    assert!(other > twin::check(listing).points, "{name}: {other}");
    let measured = ratio(&|| archive::step_bound(listing).bound, &bound_by_twin);
    print_row(name, listing.len() / lines::LINE, &measured);
}

fn print_claim_lines(rows: &mut Rows) {
    let listings = [("claim lines, 1,638 lines", longest("STOP")), ("claim lines, typical, 500 points", typical(500))];
    rows.table("claim lines of a point", "lines");
    for (name, listing) in &listings {
        if rows.want(name) {
            print_claim_part(name, listing);
        }
    }
}

/// Both give the same claim lines, not empty, before they are timed.
fn print_claim_part(name: &str, listing: &[u8]) {
    let (one, other) = (archive::claim_part(listing, POINT_ASKED), twin::claim_part(listing, POINT_ASKED));
    assert_eq!((other.number, other.offset, other.length), (0, one.offset, one.length), "{name}");
    assert!(one.number == 0 && one.length > 0, "{name}: {one:?}");
    let by_archive = || archive::claim_part(listing, POINT_ASKED).offset;
    let measured = ratio(&by_archive, &|| twin::claim_part(listing, POINT_ASKED).offset);
    print_row(name, listing.len() / lines::LINE, &measured);
}
