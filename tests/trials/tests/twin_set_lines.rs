//! The benchmark's twin sets the same lines as the reference, for every call of every family.

use trials::set_lines::{compare_setters, set_by_reference, set_families, SetAfter, SetCall};

/// Debug builds look at a share of the batches, so that a plain `cargo test` stays quick.
const SHARE: u64 = if cfg!(debug_assertions) { 20 } else { 1 };

fn of_twin(call: &SetCall) -> SetAfter {
    let mut listing = call.listing.clone();
    let set = twin::set_line(&call.word, &call.kinds, &call.numbers, call.line as usize, &mut listing);
    SetAfter { number: set.number, place: set.place, listing }
}

#[test]
fn the_twin_sets_the_same() {
    for family in set_families() {
        if let Err(difference) = compare_setters(&family.thinned(SHARE), &set_by_reference, &of_twin) {
            panic!("{difference}");
        }
    }
}
