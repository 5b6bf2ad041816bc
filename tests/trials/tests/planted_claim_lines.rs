//! A reader that is wrong on purpose about claim lines is found out, and the listing that shows it is small.

mod mended;

use lines::LINE;
use mended::mended;
use reference::refusals::{ONE_REGISTER_TWICE, OUT_OF_LIMITS};
use reference::{claim_span_within, read, Limits, Listing};
use trials::claim_lines::{compare_parts, listings, part_of_reference, Part, PartDifference};
use trials::shrink::is_claim;

/// The first difference between the reference and a wrong reader, in the family whose name has this part.
fn found(part: &str, wrong: &dyn Fn(&[u8], u64) -> Part) -> Box<PartDifference> {
    let family = listings().into_iter().find(|family| family.name.contains(part)).expect("the family exists");
    let difference = compare_parts(&family, &part_of_reference, wrong).expect_err("the planted difference is found");
    println!("{difference}");
    difference
}

/// A wrong reader that takes the first place where the same bytes stand.
fn first_of_equal(listing: &[u8], point: u64) -> Part {
    let part = part_of_reference(listing, point);
    let lines = &listing[part.offset as usize..][..part.length as usize];
    let first = listing.windows(lines.len().max(1)).step_by(LINE).position(|other| other == lines);
    Part { offset: first.map_or(part.offset, |line| (line * LINE) as u64), ..part }
}

/// A wrong reader that looks for the point before it reads the listing.
fn point_first(listing: &[u8], point: u64) -> Part {
    let points = listing.chunks(LINE).filter(|line| !is_claim(line)).count() as u64;
    if point < points {
        return part_of_reference(listing, point);
    }
    Part { number: 16, place: 0, offset: 0, length: 0 }
}

/// A wrong reader that has an empty part for the point right after the last.
fn one_point_more(listing: &[u8], point: u64) -> Part {
    let part = part_of_reference(listing, point);
    let last = point.checked_sub(1).map(|last| part_of_reference(listing, last));
    if part.number == 16 && last.is_some_and(|last| last.number == 0) {
        return Part { number: 0, place: 0, offset: 0, length: 0 };
    }
    part
}

/// A wrong reader that has an empty part for a point whose ranges are empty.
fn nothing_at_empty_points(listing: &[u8], point: u64) -> Part {
    let part = part_of_reference(listing, point);
    let empty = |read: Listing| read.points.get(point as usize).is_some_and(|point| point.is_empty());
    if part.number == 0 && read(listing).is_ok_and(empty) {
        return Part { length: 0, ..part };
    }
    part
}

#[test]
fn claim_lines_of_an_empty_point_left_out_are_found() {
    for part in ["one point, empty or nearly so", "what leads to an empty point", "dead stretches that are led around"]
    {
        let difference = found(part, &nothing_at_empty_points);
        assert_eq!((difference.left.length, difference.right.length), (2 * LINE as u64, 0));
        // a line for each point before it, its two claims, and STOP
        assert_eq!(difference.listing.len(), (difference.point as usize + 3) * LINE);
    }
}

/// A wrong reader to which one register for quotient and remainder is nothing.
fn one_register_twice(listing: &[u8], point: u64) -> Part {
    part_of_reference(&mended(listing), point)
}

#[test]
fn one_register_twice_is_found() {
    let difference = found("one register for quotient and remainder", &one_register_twice);
    assert_eq!(difference.left.number, ONE_REGISTER_TWICE);
    assert!(difference.listing.len() <= 2 * LINE, "{difference}");
}

/// A wrong reader with other limits of scales and bounds.
fn within(limits: Limits, listing: &[u8], point: u64) -> Part {
    match claim_span_within(limits, listing, point) {
        Ok(span) => Part { number: 0, place: 0, offset: span.start as u64, length: span.len() as u64 },
        Err(refusal) => Part { number: refusal.number, place: refusal.place, offset: 0, length: 0 },
    }
}

#[test]
fn other_limits_of_scales_and_bounds_are_found() {
    let Limits { scale, bound } = Limits::TODAY;
    for (part, limits, wider) in [
        ("stripes of any scale", Limits { scale: 255, bound }, false),
        ("stripes of any scale", Limits { scale: scale + 1, bound }, true),
        ("accesses of any scale", Limits { scale: 255, bound }, false),
        ("accesses of any scale", Limits { scale: scale + 1, bound }, true),
        ("bounds written", Limits { scale, bound: Limits::EARLIER.bound }, false),
        ("bounds written", Limits { scale, bound: bound + 1 }, true),
        ("bounds shifted", Limits { scale, bound: bound - 1 }, false),
    ] {
        let difference = found(part, &|listing, point| within(limits, listing, point));
        let turned_back = if wider { difference.left } else { difference.right };
        assert_eq!(turned_back.number, OUT_OF_LIMITS, "{difference}");
        assert!(difference.listing.len() <= 2 * LINE, "{difference}");
    }
}

#[test]
fn the_wrong_one_of_two_equal_parts_is_found() {
    let difference = found("equal claim lines", &first_of_equal);
    assert_eq!((difference.left.number, difference.right.number), (0, 0));
    assert_eq!(difference.left.length, difference.right.length);
    assert!(difference.left.offset > difference.right.offset);
}

#[test]
fn a_point_looked_for_too_soon_is_found() {
    let difference = found("damaged text", &point_first);
    assert!((1..=11).contains(&difference.left.number));
    assert_eq!(difference.right.number, 16);
}

#[test]
fn a_point_too_many_is_found() {
    let difference = found("equal claim lines", &one_point_more);
    assert_eq!((difference.left.number, difference.right.number), (16, 0));
    assert_eq!(difference.listing.len(), difference.point as usize * LINE, "every line a point, and no claims");
}
