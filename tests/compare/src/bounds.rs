//! The proved bounds of steps: compared with the reference's, which its runs keep to.

use trials::bounds::{bound_families, bound_of_reference, compare_bounds, Bound, BoundTally, Runs};
use trials::Count;

pub fn compare_step_bounds(count: &mut Count) {
    let (mut whole, mut all_runs) = (BoundTally::default(), Runs::default());
    println!("{}", BoundTally::heading());
    for family in bound_families() {
        let outcome = compare_bounds(&family, &bound_of_reference, &bound_of_archive).map(|(tally, runs)| {
            println!("{} {}", tally.row(), family.name);
            whole.add(&tally);
            all_runs.add(&runs);
        });
        count.test(outcome.map_err(|difference| format!("first is the reference, second the archive: {difference}")));
    }
    println!("{} all {} calls for a bound", whole.row(), whole.total());
    println!("{all_runs}");
    let rare = whole.rare();
    count.test(if rare.is_empty() { Ok(()) } else { Err(format!("bounds rarer than 1 in 1,000: {rare:?}")) });
}

/// The archive's answer, which is compared with the reference's; the line that it prints for the steps is the answer's.
fn bound_of_archive(listing: &[u8]) -> Bound {
    let archive::StepBound { number, place, second, bound } = archive::step_bound(listing);
    let answer = Bound { number, place, second, bound };
    let line = archive::print_bound(listing);
    assert_eq!(String::from_utf8_lossy(&line), line_of(&answer));
    answer
}

/// STEP with the bound in F6, or FAIL with the number in F1, the place in F6 and, for 14, the second place in F5.
fn line_of(answer: &Bound) -> String {
    let Bound { number, place, second, bound } = answer;
    match number {
        0 => format!("STEP{bound:>35}\n"),
        14 => format!("FAIL{number:>4}{second:>16}{place:>15}\n"),
        _ => format!("FAIL{number:>4}{place:>31}\n"),
    }
}
