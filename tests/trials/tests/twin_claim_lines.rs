//! The benchmark's twin finds the same claim lines as the reference, for every call of every family.

use trials::claim_lines::{compare_parts, listings, part_of_reference, Part, PartTally};

/// Debug builds look at a share of the batches, so that a plain `cargo test` stays quick.
const SHARE: u64 = if cfg!(debug_assertions) { 20 } else { 1 };

fn of_twin(listing: &[u8], point: u64) -> Part {
    let twin::Part { number, place, offset, length } = twin::claim_part(listing, point as usize);
    Part { number, place, offset, length }
}

#[test]
fn the_twin_finds_the_same_lines() {
    let mut whole = PartTally::default();
    println!("{}", PartTally::heading());
    for family in listings() {
        let name = family.name;
        match compare_parts(&family.thinned(SHARE), &part_of_reference, &of_twin) {
            Ok(tally) => {
                println!("{} {name}", tally.row());
                whole.add(&tally);
            }
            Err(difference) => panic!("{difference}"),
        }
    }
    println!("{} all {} calls for claim lines", whole.row(), whole.total());
    assert_eq!(whole.rare(), Vec::<&str>::new());
}
