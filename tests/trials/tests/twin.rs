//! The benchmark's twin gives the same answers as the reference on every listing of every family.

use reference::Answer;
use trials::{all, compare, of_columns, of_reference, Verdict};

/// Debug builds look at a share of the batches, so that a plain `cargo test` stays quick.
const SHARE: u64 = if cfg!(debug_assertions) { 20 } else { 1 };

fn of_twin(listing: &[u8]) -> Verdict {
    let twin::Answer { number, place, second, points } = twin::check(listing);
    Verdict { answer: Answer { number, place, second, points }, line: twin::printed(listing) }
}

#[test]
fn the_twin_agrees() {
    for family in all().into_iter().chain(of_columns()) {
        if let Err(difference) = compare(&family.thinned(SHARE), &of_reference, &of_twin) {
            panic!("{difference}");
        }
    }
}
