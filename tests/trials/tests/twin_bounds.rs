//! The benchmark's twin has the same bounds as the reference, on every listing of every family, and runs keep to them.

use trials::bounds::{bound_families, bound_of_reference, compare_bounds, Bound, BoundTally, Runs};

/// Debug builds look at a share of the batches, so that a plain `cargo test` stays quick.
const SHARE: u64 = if cfg!(debug_assertions) { 20 } else { 1 };

fn of_twin(listing: &[u8]) -> Bound {
    match twin::step_bound(listing) {
        Ok(bound) => Bound { number: 0, place: 0, second: 0, bound },
        Err(twin::Answer { number, place, second, .. }) => Bound { number, place, second, bound: 0 },
    }
}

#[test]
fn the_twin_has_the_same_bounds() {
    let (mut whole, mut all_runs) = (BoundTally::default(), Runs::default());
    println!("{}", BoundTally::heading());
    for family in bound_families() {
        let name = family.name;
        match compare_bounds(&family.thinned(SHARE), &bound_of_reference, &of_twin) {
            Ok((tally, runs)) => {
                println!("{} {name}: {runs}", tally.row());
                whole.add(&tally);
                all_runs.add(&runs);
            }
            Err(difference) => panic!("{difference}"),
        }
    }
    println!("{} all {} listings", whole.row(), whole.total());
    println!("{all_runs}");
    assert!(whole.total() * SHARE >= 80_000, "{} listings", whole.total());
    assert_eq!(whole.rare(), Vec::<&str>::new());
    enough(&all_runs);
}

/// Most runs stop, half of them in pieces, and many need more than a round less than the bound.
fn enough(runs: &Runs) {
    assert!(runs.stopped * SHARE >= 250_000 && runs.in_pieces * SHARE >= 125_000, "{runs}");
    assert!(runs.empty_tables * SHARE >= 50_000, "{runs}");
    assert!(runs.near * SHARE >= 4_000, "{runs}");
    assert!(runs.broken_off * 20 < runs.stopped, "{runs}");
}
