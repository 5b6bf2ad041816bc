//! A listing that passed within the earlier limits of scales and bounds passes within today's: it is read as the same
//! points, needs as many steps at most, and runs alike. A line that could be set is set alike.

use reference::refusals::{CLAIM_DOES_NOT_FOLLOW, OUT_OF_LIMITS};
use reference::{
    check, check_within, claim_span, claim_span_within, printed, read, read_within, run_within, set_line_within,
    step_bound, step_bound_within, Limits, Outcome,
};
use trials::bounds::bound_families;
use trials::earlier_limits::pass_still;
use trials::runs::{all_runs, Call};
use trials::set_lines::{set_by_reference, set_families, SetCall};
use trials::{all, of_columns, of_reference, Family, Verdict};

/// Debug builds look at a share of the batches, so that a plain `cargo test` stays quick.
const SHARE: u64 = if cfg!(debug_assertions) { 20 } else { 1 };
/// Runs take longer than checks.
const SHARE_OF_RUNS: u64 = 8;

fn listings(families: Vec<Family>, share: u64) -> impl Iterator<Item = Vec<u8>> {
    let thinned = families.into_iter().map(move |family| family.thinned(share));
    thinned.flat_map(|family| (0..family.batches).flat_map(move |batch| family.batch(batch)))
}

/// How the listings fare within the earlier limits.
#[derive(Debug, Default)]
struct Fared {
    read: u64,
    passed: u64,
    /// They pass within today's limits alone, and were turned back by 5 and by 14.
    by_numbers: u64,
    by_dropped_stripes: u64,
}

/// What was read is read as the same points, with the same instructions and claims; what passed passes. No other
/// refusal than 5 and 14 depends on the limits.
fn compare_with_earlier(listing: &[u8], fared: &mut Fared) {
    let points = match read_within(Limits::EARLIER, listing) {
        Ok(points) => points,
        Err(refusal) if refusal.number == OUT_OF_LIMITS => {
            return fared.by_numbers += u64::from(check(listing).number == 0);
        }
        Err(refusal) => return assert_eq!(read(listing), Err(refusal)),
    };
    fared.read += 1;
    assert_eq!(Ok(&points), read(listing).as_ref());
    let last = points.points.len() as u64 - 1;
    assert_eq!(claim_span_within(Limits::EARLIER, listing, last), claim_span(listing, last));
    let (earlier, today) = (check_within(Limits::EARLIER, listing), check(listing));
    if earlier.number == CLAIM_DOES_NOT_FOLLOW {
        return fared.by_dropped_stripes += u64::from(today.number == 0);
    }
    assert_eq!(earlier, today);
    fared.passed += u64::from(earlier.number == 0);
}

#[test]
fn what_passed_passes_and_is_read_alike() {
    let mut fared = Fared::default();
    listings(all(), SHARE)
        .chain(listings(of_columns(), SHARE))
        .for_each(|listing| compare_with_earlier(&listing, &mut fared));
    println!("{fared:?}");
    assert!(fared.read * SHARE >= 250_000 && fared.passed * SHARE >= 140_000, "{fared:?}");
    assert!(fared.by_numbers * SHARE >= 20_000 && fared.by_dropped_stripes * SHARE >= 500, "{fared:?}");
}

/// The comparison that `compare` makes with the proved checker, on one with a narrower limit than there was.
#[test]
fn a_listing_that_passes_no_more_is_found() {
    let narrow = Limits { bound: Limits::EARLIER.bound - 1, ..Limits::TODAY };
    let wrong = |listing: &[u8]| {
        let answer = check_within(narrow, listing);
        Verdict { answer, line: printed(&answer) }
    };
    let family = all().into_iter().find(|family| family.name.contains("bounds written")).expect("it exists");
    let difference = pass_still(&family, &wrong).expect_err("a bound at the earlier end is turned back");
    assert_eq!((difference.left.answer.number, difference.right.answer.number), (0, 5));
    assert!(pass_still(&family, &of_reference).is_ok_and(|passes| passes > 500));
}

#[test]
fn bounds_of_steps_stay() {
    let mut bounded = 0;
    for listing in listings(bound_families(), 4 * SHARE) {
        if check_within(Limits::EARLIER, &listing).number == 0 {
            assert_eq!(step_bound_within(Limits::EARLIER, &listing), step_bound(&listing));
            bounded += 1;
        }
    }
    assert!(bounded * SHARE >= 12_000, "{bounded} listings");
}

/// The outcome, the state, the steps and the results, or the refusal by 15 to 17.
fn runs_alike(call: &Call) {
    let mut results = call.results.clone();
    let earlier = run_within(Limits::EARLIER, &call.listing, call.state, &call.trays, &mut results, call.budget);
    let today = call.by_reference();
    assert_eq!((earlier, results), (today.run, today.results), "{call}");
}

#[test]
fn what_passed_runs_alike() {
    let (mut runs, mut steps) = (0, 0);
    for family in all_runs().into_iter().map(|family| family.thinned(SHARE_OF_RUNS * SHARE)) {
        for batch in 0..family.batches {
            for trial in family.batch(&mut family.random(batch)) {
                if check_within(Limits::EARLIER, &trial.call.listing).number == 0 {
                    runs_alike(&trial.call);
                    let run = trial.call.by_reference().run;
                    runs += u64::from(!matches!(run.outcome, Outcome::Refused(_)));
                    steps += run.steps;
                }
            }
        }
    }
    println!("{runs} runs of {steps} steps, and those turned back");
    assert!(runs * SHARE * SHARE_OF_RUNS >= 150_000, "{runs} runs");
}

/// A call that was turned back by anything but 5 is turned back alike.
fn set_alike(call: &SetCall) -> bool {
    let mut listing = call.listing.clone();
    let earlier = set_line_within(Limits::EARLIER, &call.word, &call.fields(), call.line, &mut listing);
    let number = earlier.map_or_else(|refusal| refusal.number, |()| 0);
    let after = set_by_reference(call);
    assert!(number == 5 || (number, listing) == (after.number, after.listing), "{call}");
    number == 0
}

#[test]
fn what_could_be_set_is_set_alike() {
    let families = set_families().into_iter().map(|family| family.thinned(4 * SHARE));
    let calls = families.flat_map(|family| (0..family.batches).flat_map(move |batch| family.batch(batch)));
    let set = calls.filter(set_alike).count() as u64;
    assert!(set * SHARE >= 6_000, "{set} lines");
}
