//! A runner that is wrong on purpose about long records is found out, and the call that shows it is small.

mod found_run;

use found_run::{found, lines_of};
use reference::refusals::{CLAIMS_NOT_MET, OUT_OF_LIMITS};
use reference::{
    read, run_within, step, Instruction, Known, Limits, Outcome, Point, Refusal, Run, Step, Stripe, Whole, REGISTERS,
};
use trials::runs::{all_runs, compare_runs, After, Call};

const WALKED: &str = "long records walked by a loop";
const ACCESSED: &str = "one access of a long record";
const MET: &str = "met and missed by one";
const ROUTINES: &str = "routines over long records, from any point";

/// A loop with one access, and a stripe or two for each of its points.
const LOOP: usize = 18;

/// What a runner keeps of the scale of an access.
type Kept = fn(&Instruction, Whole) -> Whole;

/// The reference's steps with other scales.
fn rescaled(call: &Call, kept: Kept) -> After {
    let mut after = call.by_reference();
    if after.run.steps == 0 {
        return after;
    }
    let mut listing = read(&call.listing).expect("it ran");
    for Point { instruction, .. } in &mut listing.points {
        let before = *instruction;
        if let Instruction::Load { scale, .. } | Instruction::Store { scale, .. } = instruction {
            *scale = kept(&before, *scale);
        }
    }
    let (mut state, mut results) = (call.state, call.results.clone());
    for _ in 0..after.run.steps {
        let Step::Moved(next) = step(&listing, &state, &call.trays, &mut results) else { break };
        state = next;
    }
    (after.run.state, after.results) = (state, results);
    after
}

/// What is planted below differs from the reference in the scale alone.
#[test]
fn the_right_scale_makes_no_difference() {
    let right = |call: &Call| rescaled(call, |_, scale| scale);
    for family in all_runs().into_iter().map(|family| family.thinned(20)) {
        if let Err(difference) = compare_runs(&family, &[("right", &right)]) {
            panic!("{difference}");
        }
    }
}

#[test]
fn scales_cut_to_their_low_bits_are_found() {
    let loads: Kept = |instruction, scale| match instruction {
        Instruction::Load { table: 0, .. } => scale % 256,
        _ => scale,
    };
    let loads_of_results: Kept = |instruction, scale| match instruction {
        Instruction::Load { table: 1, .. } => scale % 256,
        _ => scale,
    };
    let stores: Kept = |instruction, scale| match instruction {
        Instruction::Store { .. } => scale % 256,
        _ => scale,
    };
    for kept in [loads, loads_of_results, stores, |_, scale| scale % 2_048, |_, scale| scale.min(255)] {
        for (part, lines) in [(WALKED, LOOP), (ACCESSED, 3), (ROUTINES, LOOP)] {
            let difference = found(part, &|call| rescaled(call, kept));
            assert!(lines_of(&difference) <= lines, "{difference}");
        }
    }
}

/// Whether a runner takes a stripe to hold of the values of x, y and z.
type Holds = fn(&Stripe, [Whole; 3]) -> bool;

/// The reference's run, but that a state is admitted or refused by another test of stripes.
fn admitting(call: &Call, holds: Holds) -> After {
    let mut after = call.by_reference();
    let refused = matches!(after.run.outcome, Outcome::Refused(_));
    let by_claims = matches!(after.run.outcome, Outcome::Refused(Refusal { number: CLAIMS_NOT_MET, .. }));
    if refused && !by_claims {
        return after;
    }
    let listing = read(&call.listing).expect("it passes");
    let point = &listing.points[call.state.point as usize];
    let admitted = admits(call, point, holds);
    if admitted && refused {
        let stops = point.instruction == Instruction::Stop;
        after.run.outcome = if stops { Outcome::Stopped } else { Outcome::Paused };
    } else if !admitted && !refused {
        let refusal = Refusal { number: CLAIMS_NOT_MET, place: 0, second: 0 };
        after.run = Run { outcome: Outcome::Refused(refusal), state: call.state, steps: 0 };
        after.results.clone_from(&call.results);
    }
    after
}

fn admits(call: &Call, point: &Point, holds: Holds) -> bool {
    let sizes = [call.trays.len(), call.results.len()];
    let value = |v: usize| match v {
        0..REGISTERS => Whole::from(call.state.registers[v]),
        size => sizes[size - REGISTERS] as Whole,
    };
    let known = Known::at(point);
    let in_range = known.ranges.iter().enumerate().all(|(v, range)| range.holds(value(v)));
    let values = |stripe: &Stripe| [value(stripe.x), value(stripe.y), stripe.z.map_or(0, value)];
    in_range && known.stripes.iter().all(|stripe| holds(stripe, values(stripe)))
}

#[test]
fn the_right_test_of_stripes_makes_no_difference() {
    let right = |call: &Call| admitting(call, |stripe, [x, y, z]| x - stripe.a * (y + z) >= stripe.b);
    for family in all_runs().into_iter().map(|family| family.thinned(20)) {
        if let Err(difference) = compare_runs(&family, &[("right", &right)]) {
            panic!("{difference}");
        }
    }
}

/// The number modulo 2 to the power of so many bits, of either sign.
fn narrow(number: Whole, bits: u32) -> Whole {
    let half = 1 << (bits - 1);
    (number + half).rem_euclid(2 * half) - half
}

#[test]
fn stripes_tested_in_too_few_bits_are_found() {
    let rules: [Holds; 6] = [
        |stripe, [x, y, z]| x - (stripe.a % 256) * (y + z) >= stripe.b,
        |stripe, [x, y, z]| x - stripe.a * ((y + z) % (1 << 32)) >= stripe.b,
        |stripe, [x, y, z]| x - stripe.a * (y + z) % (1 << 32) >= stripe.b,
        |stripe, [x, y, z]| x - stripe.a * (y + z) % (1 << 44) >= stripe.b,
        |stripe, [x, y, z]| narrow(x - stripe.a * (y + z), 45) >= stripe.b,
        |stripe, [x, y, z]| x - stripe.a * (y + z) >= narrow(stripe.b, 43),
    ];
    for holds in rules {
        let difference = found(MET, &|call| admitting(call, holds));
        assert!(lines_of(&difference) <= 3, "{difference}");
    }
}

#[test]
fn runs_turned_back_within_the_earlier_limits_are_found() {
    let wrong = |call: &Call| {
        let mut results = call.results.clone();
        let run = run_within(Limits::EARLIER, &call.listing, call.state, &call.trays, &mut results, call.budget);
        After { run, results, ..call.by_reference() }
    };
    for part in [WALKED, ACCESSED, MET, ROUTINES] {
        let difference = found(part, &wrong);
        let outcome = wrong(&difference.call).run.outcome;
        assert!(matches!(outcome, Outcome::Refused(Refusal { number: OUT_OF_LIMITS, .. })), "{difference}");
        assert!(lines_of(&difference) <= 2, "{difference}");
    }
}
