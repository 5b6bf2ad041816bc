//! A runner that is wrong on purpose is found out, and the call that shows it is small.

mod found_run;
mod mended;

use found_run::{found, lines_of};
use mended::mended;
use reference::refusals::{CLAIMS_NOT_MET, DIVISOR_MAY_BE_ZERO, ONE_REGISTER_TWICE, UNKNOWN_WORD};
use reference::{
    check, read, step, step_bound, Arithmetic, Instruction, Known, Operand, Outcome, Point, Range, Refusal, Run, State,
    Step, MAX,
};
use trials::runs::{all_runs, compare_runs, After, Call};

type Registers = [u32; 16];

/// Changes what a step led to: the instruction, the state before and after, and the results.
type Change<'a> = &'a dyn Fn(&Instruction, &State, &mut State, &mut [u8]);

/// The reference's run with something changed after each step.
fn stepped(call: &Call, change: Change) -> After {
    let mut after = call.by_reference();
    if after.run.steps == 0 {
        return after;
    }
    let listing = read(&call.listing).expect("it ran");
    let (mut state, mut results) = (call.state, call.results.clone());
    for _ in 0..after.run.steps {
        let point = &listing.points[state.point as usize];
        let Step::Moved(mut next) = step(&listing, &state, &call.trays, &mut results) else { break };
        change(&point.instruction, &state, &mut next, &mut results);
        state = next;
    }
    (after.run.state, after.results) = (state, results);
    after
}

/// Sums that stay at the greatest number in place of wrapping.
fn saturating(call: &Call) -> After {
    stepped(call, &|instruction, before, next, _| {
        if let Instruction::Compute { kind: Arithmetic::Add, d, i: i @ 0..=15, o: Operand::Number(number) } =
            *instruction
        {
            if i128::from(before.registers[i]) + number > MAX {
                next.registers[d] = u32::MAX;
            }
        }
    })
}

/// Divisions of registers with another quotient.
fn dividing(call: &Call, quotient: fn(u64, u64) -> u64) -> After {
    stepped(call, &|instruction, before, next, _| {
        let Instruction::Compute { kind: Arithmetic::Divide, d, i: i @ 0..=15, o } = *instruction else { return };
        let divisor = match o {
            Operand::Number(number) => number as u64,
            Operand::Variable(v @ 0..=15) => u64::from(before.registers[v]),
            Operand::Variable(_) => return,
        };
        next.registers[d] = quotient(u64::from(before.registers[i]), divisor) as u32;
    })
}

/// Writes quotient and remainder: of q, i and r, by the divisor that the registers have.
type Deal = fn([usize; 3], &dyn Fn(&Registers) -> u32, &mut Registers);

/// Divisions with remainder of registers by registers or numbers, made in another way.
fn dealing(call: &Call, deal: Deal) -> After {
    stepped(call, &|instruction, before, next, _| {
        let Instruction::DivMod { q, i: i @ 0..=15, r, o } = *instruction else { return };
        let divisor = |registers: &Registers| match o {
            Operand::Variable(v) => registers[v],
            Operand::Number(number) => number as u32,
        };
        if !matches!(o, Operand::Variable(16..)) {
            next.registers = before.registers;
            deal([q, i, r], &divisor, &mut next.registers);
        }
    })
}

/// Stores of two bytes with the greater one first.
fn greater_byte_first(call: &Call) -> After {
    stepped(call, &|instruction, before, _, results| {
        if let Instruction::Store { width: 2, scale, i: i @ 0..=15, offset, .. } = *instruction {
            let at = (scale * i128::from(before.registers[i]) + offset) as usize;
            results.swap(at, at + 1);
        }
    })
}

/// Paused where the last unit of the budget comes to STOP.
fn pauses_at_stop(call: &Call) -> After {
    let mut after = call.by_reference();
    if after.run.outcome == Outcome::Stopped && after.run.steps == u64::from(call.budget) {
        after.run.outcome = Outcome::Paused;
    }
    after
}

/// The whole routine in the first call, however small the budget, with a pause feigned.
fn runs_ahead(call: &Call) -> After {
    let mut after = call.by_reference();
    if after.run.outcome == Outcome::Paused {
        after.results = Call { budget: call.budget.saturating_add(40), ..call.clone() }.by_reference().results;
    }
    after
}

/// 17 for a point that does not exist.
fn no_sixteen(call: &Call) -> After {
    let mut after = call.by_reference();
    if let Outcome::Refused(Refusal { number: 16, .. }) = after.run.outcome {
        after.run.outcome = Outcome::Refused(Refusal { number: 17, place: 0, second: 0 });
    }
    after
}

/// A refusal by 17 that clears the results first.
fn clears_results(call: &Call) -> After {
    let mut after = call.by_reference();
    if let Outcome::Refused(Refusal { number: 17, .. }) = after.run.outcome {
        after.results.fill(0);
    }
    after
}

/// A tray byte written where a step was made.
fn writes_trays(call: &Call) -> After {
    let mut after = call.by_reference();
    if let (Some(byte), 1..) = (after.trays.last_mut(), after.run.steps) {
        *byte ^= 1;
    }
    after
}

/// A runner that does not know the word TURN.
fn knows_no_turn(call: &Call) -> After {
    let mut after = call.by_reference();
    if call.listing.starts_with(b"TURN") {
        let refusal = Refusal { number: UNKNOWN_WORD, place: 1, second: 0 };
        after.run = Run { outcome: Outcome::Refused(refusal), state: call.state, steps: 0 };
        after.results = call.results.clone();
    }
    after
}

/// No run longer than a round less than a bound of several rounds.
fn a_round_less(call: &Call) -> After {
    let points = check(&call.listing).points;
    match step_bound(&call.listing) {
        Ok(bound) if bound > points && u64::from(call.budget) > bound - points => {
            Call { budget: (bound - points) as u32, ..call.clone() }.by_reference()
        }
        _ => call.by_reference(),
    }
}

#[test]
fn a_sum_that_does_not_wrap_is_found() {
    let difference = found("every instruction", &saturating);
    assert!(lines_of(&difference) <= 2 && difference.call.budget == 1, "{difference}");
}

#[test]
fn bytes_in_the_wrong_order_are_found() {
    let difference = found("every instruction", &greater_byte_first);
    assert!(lines_of(&difference) <= 3 && difference.call.results.len() <= 4, "{difference}");
}

#[test]
fn a_pause_at_stop_is_found() {
    let difference = found("routines", &pauses_at_stop);
    assert_eq!((lines_of(&difference), difference.call.budget), (1, 0));
}

#[test]
fn a_run_ahead_of_its_budget_is_found() {
    let difference = found("routines", &runs_ahead);
    assert!(difference.call.budget == 0 && lines_of(&difference) <= 4, "{difference}");
}

#[test]
fn a_wrong_number_is_found() {
    let difference = found("does not exist", &no_sixteen);
    assert_eq!((lines_of(&difference), difference.call.state.point), (1, 1));
}

#[test]
fn results_changed_by_a_refusal_are_found() {
    let difference = found("misses a claim", &clears_results);
    assert!(lines_of(&difference) == 2 && difference.call.results.len() == 1, "{difference}");
}

#[test]
fn a_changed_tray_is_found() {
    let difference = found("routines", &writes_trays);
    assert!(lines_of(&difference) <= 2 && difference.call.trays.len() == 1, "{difference}");
}

/// A wrong quotient is found where values are divided and where they lie in ranges, by one division.
#[track_caller]
fn quotient_found(quotient: fn(u64, u64) -> u64) {
    for part in ["quotients of values", "quotients of ranges"] {
        let difference = found(part, &|call| dividing(call, quotient));
        assert!(lines_of(&difference) <= 3 && difference.call.budget == 1, "{difference}");
    }
}

/// What is planted below differs from the reference in the quotient alone.
#[test]
fn the_right_quotient_makes_no_difference() {
    let right = |call: &Call| dividing(call, |i, o| (2 * i + o) / (2 * o));
    for family in all_runs().into_iter().map(|family| family.thinned(20)) {
        if let Err(difference) = compare_runs(&family, &[("right", &right)]) {
            panic!("{difference}");
        }
    }
}

#[test]
fn a_quotient_rounded_down_is_found() {
    quotient_found(|i, o| i / o);
}

#[test]
fn a_half_that_goes_down_is_found() {
    quotient_found(|i, o| (2 * i + o - 1) / (2 * o));
}

#[test]
fn a_divisor_that_is_not_doubled_is_found() {
    quotient_found(|i, o| (2 * i + o) / o);
}

#[test]
fn a_quotient_from_a_sum_of_32_bits_is_found() {
    quotient_found(|i, o| ((2 * i + o) as u32 as u64) / (2 * o));
    quotient_found(|i, o| ((i + o / 2) as u32 as u64) / o);
}

/// A wrong division with remainder is found where values are divided and where they lie in ranges, by one division.
#[track_caller]
fn remainder_found(deal: Deal) {
    for part in ["remainders of values", "remainders of ranges"] {
        let difference = found(part, &|call| dealing(call, deal));
        assert!(lines_of(&difference) <= 3 && difference.call.budget == 1, "{difference}");
    }
}

/// What is planted below differs from the reference in the two results alone.
#[test]
fn the_right_remainder_makes_no_difference() {
    let right = |call: &Call| {
        dealing(call, |[q, i, r], divisor, registers| {
            let (dividend, divisor) = (registers[i], divisor(registers));
            (registers[q], registers[r]) = (dividend / divisor, dividend % divisor);
        })
    };
    for family in all_runs().into_iter().map(|family| family.thinned(20)) {
        if let Err(difference) = compare_runs(&family, &[("right", &right)]) {
            panic!("{difference}");
        }
    }
}

/// The quotient overwrites the dividend, or the divisor; by a new divisor of 0, nothing is left.
#[test]
fn a_remainder_after_the_quotient_is_written_is_found() {
    remainder_found(|[q, i, r], divisor, registers| {
        let by = divisor(registers);
        registers[q] = registers[i] / by;
        registers[r] = registers[i] % by;
    });
    remainder_found(|[q, i, r], divisor, registers| {
        let of = registers[i];
        registers[q] = of / divisor(registers);
        registers[r] = of.checked_rem(divisor(registers)).unwrap_or(0);
    });
}

#[test]
fn a_quotient_after_the_remainder_is_written_is_found() {
    remainder_found(|[q, i, r], divisor, registers| {
        let by = divisor(registers);
        registers[r] = registers[i] % by;
        registers[q] = registers[i] / by;
    });
    remainder_found(|[q, i, r], divisor, registers| {
        let of = registers[i];
        registers[r] = of % divisor(registers);
        registers[q] = of.checked_div(divisor(registers)).unwrap_or(0);
    });
}

#[test]
fn results_exchanged_are_found() {
    remainder_found(|[q, i, r], divisor, registers| {
        let (dividend, divisor) = (registers[i], divisor(registers));
        (registers[r], registers[q]) = (dividend / divisor, dividend % divisor);
    });
}

#[test]
fn a_quotient_to_the_nearest_with_its_remainder_is_found() {
    remainder_found(|[q, i, r], divisor, registers| {
        let (dividend, divisor) = (u64::from(registers[i]), u64::from(divisor(registers)));
        (registers[q], registers[r]) = (((2 * dividend + divisor) / (2 * divisor)) as u32, (dividend % divisor) as u32);
    });
}

#[test]
fn a_remainder_that_is_not_written_is_found() {
    remainder_found(|[q, i, _], divisor, registers| registers[q] = registers[i] / divisor(registers));
}

/// A run where one register is named for both results.
#[test]
fn a_run_with_one_register_twice_is_found() {
    let runs_anyway = |call: &Call| {
        let mut after = call.with_listing(&mended(&call.listing)).by_reference();
        after.listing.clone_from(&call.listing);
        after
    };
    let difference = found("one register for quotient and remainder", &runs_anyway);
    assert!(lines_of(&difference) <= 2, "{difference}");
}

/// 19 with no line.
#[test]
fn a_refusal_without_its_line_is_found() {
    let no_place = |call: &Call| {
        let mut after = call.by_reference();
        if let Outcome::Refused(Refusal { number: number @ ONE_REGISTER_TWICE, .. }) = after.run.outcome {
            after.run.outcome = Outcome::Refused(Refusal { number, place: 0, second: 0 });
        }
        after
    };
    let difference = found("one register for quotient and remainder", &no_place);
    assert_eq!((lines_of(&difference), difference.call.budget), (1, 0));
}

#[test]
fn a_listing_under_a_turn_line_refused_is_found() {
    let difference = found("loops that count down, from any point", &knows_no_turn);
    assert_eq!(lines_of(&difference), 1);
}

/// The reference's run, but that a state at an empty point for which this holds is admitted and stays where it is.
fn admits_at_empty(call: &Call, admits: fn(&Point, &State) -> bool) -> After {
    let mut after = call.by_reference();
    let Outcome::Refused(Refusal { number: CLAIMS_NOT_MET, .. }) = after.run.outcome else { return after };
    let listing = read(&call.listing).expect("17 comes after reading");
    let point = &listing.points[call.state.point as usize];
    if point.is_empty() && admits(point, &call.state) {
        let stops = point.instruction == Instruction::Stop;
        after.run.outcome = if stops { Outcome::Stopped } else { Outcome::Paused };
    }
    after
}

/// Every register lies above its least value, whatever the greatest is, or the other way round.
fn one_end_is_met(point: &Point, state: &State, met: fn(i128, &Range) -> bool) -> bool {
    let ranges = Known::at(point).ranges;
    state.registers.iter().zip(&ranges).all(|(&value, range)| met(i128::from(value), range))
}

#[test]
fn a_state_admitted_at_an_empty_point_is_found() {
    let any: fn(&Point, &State) -> bool = |_, _| true;
    let by_least: fn(&Point, &State) -> bool =
        |point, state| one_end_is_met(point, state, |value, range| value >= range.lo);
    let by_most: fn(&Point, &State) -> bool =
        |point, state| one_end_is_met(point, state, |value, range| value <= range.hi);
    let by_registers: fn(&Point, &State) -> bool =
        |point, state| one_end_is_met(point, state, |value, range| range.holds(value));
    for admits in [any, by_least, by_most, by_registers] {
        let difference = found("a state at an empty point", &|call| admits_at_empty(call, admits));
        assert!(lines_of(&difference) <= 4, "{difference}");
    }
}

/// A runner that turns back every listing with an empty point.
#[test]
fn a_listing_with_an_empty_point_refused_is_found() {
    let refuses = |call: &Call| {
        let mut after = call.by_reference();
        let Ok(listing) = read(&call.listing) else { return after };
        if let (Some(point), false) =
            (listing.points.iter().find(|point| point.is_empty()), matches!(after.run.outcome, Outcome::Refused(_)))
        {
            let refusal = Refusal { number: DIVISOR_MAY_BE_ZERO, place: point.line, second: 0 };
            after.run = Run { outcome: Outcome::Refused(refusal), state: call.state, steps: 0 };
            after.results.clone_from(&call.results);
        }
        after
    };
    for part in ["routines with dead stretches", "nearly empty", "hostile claims"] {
        let difference = found(part, &refuses);
        assert!(lines_of(&difference) <= 4, "{difference}");
    }
}

/// With the bound as budget, some runs end in its last round.
#[test]
fn a_run_that_ends_a_round_before_its_bound_is_found() {
    found("with their bound and a round less", &a_round_less);
}
