//! The families hold what they promise: enough listings, every answer often enough, routines that pass, quotients at
//! and beside a half, remainders in every way that their variables can meet, points empty and nearly so by every
//! variable.

use lines::LINE;
use reference::refusals::EMPTY_START;
use reference::{
    meets, read, read_line, step, Arithmetic, Claim, Instruction, Known, Line, Operand, Range, State, Step, Whole,
    VARIABLES,
};
use std::cmp::Ordering;
use std::collections::BTreeMap;
use trials::runs::{all_runs, Call};
use trials::shrink::is_claim;
use trials::{all, of_reference, Family, Tally};

/// Debug builds look at a share of the batches, so that a plain `cargo test` stays quick.
const SHARE: u64 = if cfg!(debug_assertions) { 20 } else { 1 };

#[test]
fn every_answer_comes_up_often_enough() {
    let mut whole = Tally::default();
    println!("{}", Tally::heading());
    for family in all() {
        let name = family.name;
        let family = family.thinned(SHARE);
        let mut tally = Tally::default();
        for batch in 0..family.batches {
            family.batch(batch).iter().for_each(|listing| tally.count(&of_reference(listing).answer));
        }
        println!("{} {name}", tally.row());
        whole.add(&tally);
    }
    println!("{} all {} listings", whole.row(), whole.total());
    assert!(whole.total() * SHARE >= 550_000, "{} listings", whole.total());
    assert_eq!(whole.rare(), Vec::<&str>::new());
}

const ROUTINES: [&str; 6] = [
    "routines that pass, with loops and stripes",
    "routines that divide with remainder",
    "loops that count down",
    "dead stretches that are led around",
    "routines with dead stretches",
    "routines over long records",
];

#[test]
fn routines_pass() {
    let families = all().into_iter().filter(|family| ROUTINES.contains(&family.name));
    for routines in families.map(|family| family.thinned(10 * SHARE)) {
        for listing in (0..routines.batches).flat_map(|batch| routines.batch(batch)) {
            assert_eq!(reference::check(&listing).number, 0);
        }
    }
}

/// Every listing of a family with this part in its name.
fn listings_of(part: &str) -> impl Iterator<Item = Vec<u8>> {
    let named = |family: &Family| family.name.contains(part);
    let families: Vec<Family> = all().into_iter().filter(named).map(|family| family.thinned(SHARE)).collect();
    families.into_iter().flat_map(|family| (0..family.batches).flat_map(move |batch| family.batch(batch)))
}

#[test]
fn divisions_pass_and_are_turned_back_by_12_and_14() {
    for part in ["quotients of one value", "quotients of ranges", "remainders of one value", "remainders of ranges"] {
        let numbers: Vec<u64> = listings_of(part).map(|listing| reference::check(&listing).number).collect();
        for number in [0, 12, 14] {
            let times = numbers.iter().filter(|&&other| other == number).count() as u64;
            assert!(times * SHARE >= 600, "{part}: {times} times {number}");
        }
    }
}

/// A division that a run makes.
struct Made {
    instruction: Instruction,
    dividend: u64,
    divisor: u64,
}

/// The divisions of a run, of either kind.
fn divisions(call: &Call) -> Vec<Made> {
    let listing = read(&call.listing).expect("the listings of divisions can be read");
    let (mut state, mut results, mut made) = (call.state, call.results.clone(), Vec::new());
    if !meets(&listing, &state, &call.trays, &results) {
        return made;
    }
    for _ in 0..call.budget {
        let instruction = listing.points[state.point as usize].instruction;
        if let (Some(i), Some(o)) = (dividend(&instruction), instruction.divisor()) {
            let divisor = match o {
                Operand::Number(number) => number as u64,
                Operand::Variable(v) => value(call, &state, v),
            };
            made.push(Made { instruction, dividend: value(call, &state, i), divisor });
        }
        let Step::Moved(next) = step(&listing, &state, &call.trays, &mut results) else { break };
        state = next;
    }
    made
}

fn dividend(instruction: &Instruction) -> Option<usize> {
    match *instruction {
        Instruction::Compute { kind: Arithmetic::Divide, i, .. } | Instruction::DivMod { i, .. } => Some(i),
        _ => None,
    }
}

/// The divisions of every first run of the families with this part in their names.
fn divisions_of(part: &str) -> Vec<Made> {
    let mut made = Vec::new();
    for family in all_runs().into_iter().filter(|family| family.name.contains(part)) {
        let family = family.thinned(SHARE);
        for batch in 0..family.batches {
            let trials = family.batch(&mut family.random(batch));
            made.extend(trials.iter().flat_map(|trial| divisions(&trial.call)));
        }
    }
    made
}

fn value(call: &Call, state: &State, v: usize) -> u64 {
    let sizes = [call.trays.len() as u64, call.results.len() as u64];
    state.registers.get(v).map_or_else(|| sizes[v - state.registers.len()], |&value| u64::from(value))
}

#[test]
fn runs_divide_at_and_beside_a_half() {
    let made = divisions_of("quotients");
    let rest = |made: &Made| {
        let rest = made.dividend % made.divisor;
        (rest == 0, (2 * rest).cmp(&made.divisor))
    };
    let count = |kind| made.iter().filter(|made| rest(made) == kind).count() as u64;
    let kinds = [(true, Ordering::Less), (false, Ordering::Less), (false, Ordering::Equal), (false, Ordering::Greater)];
    println!("{} divisions, {:?} with no rest, below a half, a half, above", made.len(), kinds.map(count));
    assert!(kinds.into_iter().all(|kind| count(kind) * SHARE >= 5_000), "{:?}", kinds.map(count));
}

/// Which of the others the dividend and the divisor of a division with remainder are.
fn meeting(instruction: &Instruction) -> Option<[&'static str; 2]> {
    let Instruction::DivMod { q, i, r, o } = *instruction else { return None };
    let with_results = |v| match v {
        v if v == q => Some("quotient"),
        v if v == r => Some("remainder"),
        _ => None,
    };
    let divisor = match o {
        Operand::Number(_) => "number",
        Operand::Variable(o) if o == i => "dividend",
        Operand::Variable(o) => with_results(o).unwrap_or("apart"),
    };
    Some([with_results(i).unwrap_or("apart"), divisor])
}

/// Three for the dividend by five for the divisor, less two: one that is a result is no longer the other's.
const MEETINGS: usize = 13;

#[track_caller]
fn meet_in_every_way(instructions: impl Iterator<Item = Instruction>) {
    let mut counts = BTreeMap::new();
    for meeting in instructions.filter_map(|instruction| meeting(&instruction)) {
        *counts.entry(meeting).or_insert(0) += 1;
    }
    println!("{counts:?}");
    assert_eq!(counts.len(), MEETINGS);
    assert!(counts.values().all(|times| times * SHARE >= 200), "{counts:?}");
}

#[test]
fn remainders_meet_in_every_way() {
    for part in ["remainders of one value", "remainders of ranges"] {
        let listings = listings_of(part).filter_map(|listing| read(&listing).ok());
        meet_in_every_way(listings.flat_map(|listing| listing.points).map(|point| point.instruction));
    }
    for part in ["remainders of values", "remainders of ranges"] {
        meet_in_every_way(divisions_of(part).into_iter().map(|made| made.instruction));
    }
}

/// A kind of division and its name.
type Kind = (&'static str, fn(&Made) -> bool);

#[test]
fn runs_leave_nothing_a_little_and_nearly_all() {
    const MAX: u64 = u32::MAX as u64;
    let made = divisions_of("remainders of values");
    let kinds: [Kind; 8] = [
        ("nothing left", |made| made.dividend % made.divisor == 0),
        ("1 left", |made| made.dividend % made.divisor == 1),
        ("nearly all left", |made| made.divisor > 2 && made.dividend % made.divisor == made.divisor - 1),
        ("0 divided", |made| made.dividend == 0),
        ("1 divided", |made| made.dividend == 1),
        ("the greatest divided", |made| made.dividend == MAX),
        ("by 1", |made| made.divisor == 1),
        ("by the greatest", |made| made.divisor == MAX),
    ];
    for (name, kind) in kinds {
        let times = made.iter().filter(|made| kind(made)).count() as u64;
        println!("{times} of {} divisions: {name}", made.len());
        assert!(times * SHARE >= 800, "{name}: {times}");
    }
}

/// Every listing of a family, none left out, since some of what is looked for is rare.
fn all_listings_of(name: &str) -> impl Iterator<Item = Vec<u8>> {
    let family = all().into_iter().find(|family| family.name == name).expect("the family exists");
    (0..family.batches).flat_map(move |batch| family.batch(batch))
}

const ONE_POINT: &str = "one point, empty or nearly so";
const LED_TO: &str = "what leads to an empty point";
const POINT_0: &str = "point 0 empty or nearly so";

/// The answers that a family aims at.
type Aim = (&'static str, &'static [u64]);

/// Each answer at least once in a hundred listings.
#[test]
fn empty_points_give_the_answers_that_they_aim_at() {
    let aims: [Aim; 8] = [
        (ONE_POINT, &[0, 12, 13, 14]),
        ("an empty range that the step overwrites", &[0, 12, 14]),
        (LED_TO, &[0, 14]),
        ("a few random points, some empty", &[0, 12, 13, 14]),
        (POINT_0, &[0, 11, 12, 13, 14]),
        ("dead stretches with a flaw", &[0, 12, 13, 14]),
        ("dead stretches, damaged", &[0, 1, 2, 3, 4, 5, 6, 7, 9, 10, 11, 19]),
        ("dead stretches of 512 and 513 points", &[0, 8, 12, 13, 14]),
    ];
    for (name, aim) in aims {
        let numbers: Vec<u64> = all_listings_of(name).map(|listing| reference::check(&listing).number).collect();
        for number in aim {
            let times = numbers.iter().filter(|&other| other == number).count();
            assert!(times * 100 >= numbers.len(), "{name}: {times} times {number}");
        }
    }
}

/// What a point may leave of a variable, by its range and its greatest value unclaimed.
type Left = fn(&Range, Whole) -> bool;

/// No value, by one and by more; one value, the greatest alone, and 0 alone.
const LEFT: [Left; 5] = [
    |range, _| range.lo == range.hi + 1,
    |range, _| range.lo > range.hi + 1,
    |range, _| range.lo == range.hi,
    |range, greatest| range.lo == greatest && range.hi == greatest,
    |range, _| range.hi == 0 && range.lo == 0,
];

#[test]
fn points_are_empty_and_nearly_so_by_every_variable() {
    let unclaimed = Known::nothing().ranges;
    for name in [ONE_POINT, LED_TO] {
        let mut counts = [[0; LEFT.len()]; VARIABLES];
        for point in all_listings_of(name).filter_map(|listing| read(&listing).ok()).flat_map(|listing| listing.points)
        {
            let ranges = Known::at(&point).ranges;
            for (v, range) in ranges.iter().enumerate() {
                let left = LEFT.map(|left| u64::from(left(range, unclaimed[v].hi)));
                counts[v].iter_mut().zip(left).for_each(|(count, more)| *count += more);
            }
        }
        println!("{name}: {counts:?}");
        assert!(counts.iter().flatten().all(|&times| times >= 30), "{name}: {counts:?}");
    }
}

/// The listing is turned back by 11, so that its points are not read: its first lines are.
#[test]
fn point_0_is_empty_by_every_variable() {
    let mut counts = [0; VARIABLES];
    for listing in all_listings_of(POINT_0).filter(|listing| reference::check(listing).number == EMPTY_START) {
        let mut ranges = Known::nothing().ranges;
        for line in listing.chunks(LINE).take_while(|line| is_claim(line)) {
            match read_line(line) {
                Ok(Line::Claim(Claim::Least { v, value })) => ranges[v].lo = value,
                Ok(Line::Claim(Claim::Most { v, value })) => ranges[v].hi = value,
                _ => {}
            }
        }
        ranges.iter().zip(&mut counts).for_each(|(range, count)| *count += u64::from(range.is_empty()));
    }
    println!("{counts:?}");
    assert!(counts.iter().all(|&times| times >= 40), "{counts:?}");
}
