//! Compares the proved checker, the bounds of steps and the claim lines of points with the reference on families of
//! listings, the proved setter on families of calls, and the program with the examples. Routines keep to their bounds.
//! What is set is read, and what is read is set again. What passed within the earlier limits of scales and bounds
//! passes.
//! Counted are: each family, each of the two laws, the earlier limits, each example, and that no answer is rare.

mod bounds;
mod earlier_limits;
mod set_lines;

use bounds::compare_step_bounds;
use earlier_limits::try_earlier_limits;
use reference::Answer;
use set_lines::{compare_set_lines, try_laws};
use std::fs;
use std::path::{Path, PathBuf};
use std::process::{Command, ExitCode};
use trials::claim_lines::{compare_parts, listings, part_of_reference, Part, PartTally};
use trials::{all, compare, of_columns, of_reference, Count, Family, Tally, Verdict};

fn main() -> ExitCode {
    let mut count = Count::default();
    compare_families(&mut count);
    compare_step_bounds(&mut count);
    compare_claim_lines(&mut count);
    compare_set_lines(&mut count);
    try_laws(&mut count);
    try_earlier_limits(&mut count);
    try_examples(&mut count);
    println!(
        "counted: each family of listings for the checker, for bounds and for claim lines, each family of calls that"
    );
    println!("set a line, for each of the four once that no answer is rare, each of the two laws, the earlier limits,");
    println!("and each example");
    count.finish()
}

fn of_archive(listing: &[u8]) -> Verdict {
    let archive::Answer { number, place, second, points } = archive::check(listing);
    Verdict { answer: Answer { number, place, second, points }, line: archive::printed(listing) }
}

fn compare_families(count: &mut Count) {
    println!("{}", Tally::heading());
    let whole = compare_each(&all(), count);
    println!("{} all {} listings", whole.row(), whole.total());
    let rare = whole.rare();
    count.test(if rare.is_empty() { Ok(()) } else { Err(format!("rarer than 1 in 1,000: {rare:?}")) });
    let whole = compare_each(&of_columns(), count);
    println!("{} all {} listings of one line", whole.row(), whole.total());
}

fn compare_each(families: &[Family], count: &mut Count) -> Tally {
    let mut whole = Tally::default();
    for family in families {
        let outcome = compare(family, &of_reference, &of_archive).map(|tally| {
            println!("{} {}", tally.row(), family.name);
            whole.add(&tally);
        });
        count.test(outcome.map_err(|difference| format!("first is the reference, second the archive: {difference}")));
    }
    whole
}

/// The archive's answer; what its wrapper cuts out of the listing is the part that it names.
fn part_of_archive(listing: &[u8], point: u64) -> Part {
    let archive::ClaimPart { number, place, offset, length } = archive::claim_part(listing, point as usize);
    let named = &listing[offset as usize..][..length as usize];
    assert_eq!(archive::claim_lines(listing, point as usize).unwrap_or_default(), named);
    Part { number, place, offset, length }
}

fn compare_claim_lines(count: &mut Count) {
    let mut whole = PartTally::default();
    println!("{}", PartTally::heading());
    for family in listings() {
        let outcome = compare_parts(&family, &part_of_reference, &part_of_archive).map(|tally| {
            println!("{} {}", tally.row(), family.name);
            whole.add(&tally);
        });
        count.test(outcome.map_err(|difference| format!("first is the reference, second the archive: {difference}")));
    }
    println!("{} all {} calls for claim lines", whole.row(), whole.total());
    let rare = whole.rare();
    count.test(if rare.is_empty() { Ok(()) } else { Err(format!("claim lines rarer than 1 in 1,000: {rare:?}")) });
}

fn root() -> PathBuf {
    Path::new(env!("CARGO_MANIFEST_DIR")).join("../..")
}

fn try_examples(count: &mut Count) {
    let program = root().join("check-listing");
    if !program.exists() {
        return count.test(Err("check-listing is missing at the root of the repository".to_string()));
    }
    let listings = examples();
    if listings.is_empty() {
        return count.test(Err("examples/ has no listings".to_string()));
    }
    listings.iter().for_each(|listing| count.test(try_example(&program, listing)));
}

/// The listings in examples/, by name.
fn examples() -> Vec<PathBuf> {
    let entries = fs::read_dir(root().join("examples")).into_iter().flatten().flatten();
    let mut listings: Vec<PathBuf> = entries.map(|entry| entry.path()).collect();
    listings.retain(|path| path.extension().is_some_and(|extension| extension == "lst"));
    listings.sort();
    listings
}

/// Gives the listing to the program and compares what it prints.
fn try_example(program: &Path, listing: &Path) -> Result<(), String> {
    let name = listing.file_name().unwrap_or_default().to_string_lossy();
    let expected = fs::read(listing.with_extension("expected")).map_err(|error| format!("{name}: {error}"))?;
    let output = Command::new(program).arg(listing).output().map_err(|error| format!("{name}: {error}"))?;
    if output.stdout == expected {
        return Ok(());
    }
    let (expected, got) = (expected.escape_ascii(), output.stdout.escape_ascii());
    Err(format!("{name}: the program printed '{got}', not '{expected}'"))
}
