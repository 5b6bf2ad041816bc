//! A bound that is wrong on purpose is found out, by the comparison or by a run, and the listing that shows it is small.

use lines::LINE;
use reference::refusals::{BAD_ORDER, CLAIM_DOES_NOT_FOLLOW, OUT_OF_LIMITS, WAY_BACK_NOT_COVERED};
use reference::{
    check, edges, read, read_line, step_bound_within, Answer, Arithmetic, Instruction, Known, Limits, Line, Listing,
    Operand, Point, Refusal, MAX,
};
use trials::bounds::{bound_families, bound_of_reference, compare_bounds, Bound, BoundDifference};

/// How a bound is found. Each is right in all but one thing.
#[derive(Clone, Copy)]
struct Rule {
    /// Whether a point goes back.
    goes_back: fn(&Listing, usize) -> bool,
    /// Whether a point may go back at all.
    may: fn(&Instruction) -> bool,
    /// Whether the JUMP is a target.
    is_target: fn(&Listing, usize) -> bool,
    /// Whether what stands before the point counts the register down.
    counted: fn(&Listing, usize, usize) -> bool,
    /// Whether the point writes the register.
    writes: fn(&Point, usize) -> bool,
    /// Whether a writer of the register is fit.
    fit: fn(&Point, usize) -> bool,
    /// The bound, of the listing and the TURN register.
    rounds: fn(&Listing, usize) -> u64,
    /// Which of the points that are not covered is named.
    named: fn(&[usize]) -> Option<usize>,
}

const RIGHT: Rule = Rule {
    goes_back: |listing, at| target(listing, at).is_some_and(|target| target <= at),
    may: |instruction| matches!(instruction, Instruction::Jump { .. }),
    is_target: |listing, at| (0..listing.points.len()).any(|from| target(listing, from) == Some(at)),
    counted: |listing, at, turn| at > 0 && subtracts_into(&listing.points[at - 1], turn),
    writes: |point, turn| point.instruction.written().contains(&turn),
    fit: |point, turn| takes(point, turn).is_some_and(|number| number >= 1 && least(point, turn) >= number),
    rounds: |listing, turn| most(&listing.points[0], turn) + 1,
    named: |uncovered| uncovered.first().copied(),
};

fn target(listing: &Listing, at: usize) -> Option<usize> {
    listing.points[at].instruction.target()
}

fn subtracts_into(point: &Point, register: usize) -> bool {
    matches!(point.instruction, Instruction::Compute { kind: Arithmetic::Subtract, d, .. } if d == register)
}

/// The number that the point takes from the register.
fn takes(point: &Point, register: usize) -> Option<u64> {
    match point.instruction {
        Instruction::Compute { kind: Arithmetic::Subtract, d, i, o: Operand::Number(number) }
            if d == register && i == register =>
        {
            Some(number as u64)
        }
        _ => None,
    }
}

fn least(point: &Point, register: usize) -> u64 {
    Known::at(point).ranges[register].lo as u64
}

fn most(point: &Point, register: usize) -> u64 {
    Known::at(point).ranges[register].hi as u64
}

fn refused(number: u64, place: u64) -> Bound {
    Bound { number, place, second: 0, bound: 0 }
}

fn bound_by(listing: &[u8], rule: &Rule) -> Bound {
    let Answer { number, place, second, .. } = check(listing);
    if number != 0 {
        return Bound { number, place, second, bound: 0 };
    }
    let listing = read(listing).expect("it passes");
    let back: Vec<usize> = (0..listing.points.len()).filter(|&at| (rule.goes_back)(&listing, at)).collect();
    let uncovered: Vec<usize> = back.iter().copied().filter(|&at| !is_covered(&listing, at, rule)).collect();
    if let Some(at) = (rule.named)(&uncovered) {
        return refused(WAY_BACK_NOT_COVERED, listing.points[at].line);
    }
    let rounds = listing.turn.filter(|_| !back.is_empty()).map_or(1, |turn| (rule.rounds)(&listing, turn));
    Bound { number: 0, place: 0, second: 0, bound: listing.points.len() as u64 * rounds }
}

fn is_covered(listing: &Listing, at: usize, rule: &Rule) -> bool {
    let Some(turn) = listing.turn else { return false };
    let mut writers = listing.points.iter().filter(|point| (rule.writes)(point, turn));
    (rule.may)(&listing.points[at].instruction)
        && !(rule.is_target)(listing, at)
        && (rule.counted)(listing, at, turn)
        && writers.all(|point| (rule.fit)(point, turn))
}

/// The first difference between the reference and a wrong bound, in the family whose name has this part.
#[track_caller]
fn found(part: &str, wrong: &dyn Fn(&[u8]) -> Bound) -> Box<BoundDifference> {
    let family = bound_families().into_iter().find(|family| family.name.contains(part)).expect("the family exists");
    let difference = compare_bounds(&family, &bound_of_reference, wrong).expect_err("the planted difference is found");
    println!("{difference}");
    difference
}

/// A loop, what changes its way, their claims, and a claim at the start.
const FEW_LINES: usize = 10;

/// The numbers of the reference and of the wrong rule, on a small listing.
#[track_caller]
fn rule_found(part: &str, rule: Rule) -> (u64, u64) {
    let difference = found(part, &|listing| bound_by(listing, &rule));
    assert!(difference.listing.len() <= FEW_LINES * LINE, "{difference}");
    (difference.left.number, difference.right.number)
}

const ADMITTED: (u64, u64) = (WAY_BACK_NOT_COVERED, 0);
const REFUSED: (u64, u64) = (0, WAY_BACK_NOT_COVERED);
const BOTH_BOUNDED: (u64, u64) = (0, 0);

const LOOPS: &str = "loops that count down";
const NEARLY_ALL: &str = "need nearly all";
const GREATEST: &str = "any greatest value";
const JUST_BEFORE: &str = "just before a way back";
const TARGETS: &str = "targets at and beside";
const WRITERS: &str = "everything that writes";
const NUMBERS: &str = "what is taken off";
const REGISTERS: &str = "other registers and operands";
const BRANCHES: &str = "branches that go back";
const SEVERAL: &str = "several ways back";
const NOT_REACHED: &str = "that nothing reaches";
const BLOCKS: &str = "random blocks";
const EMPTY: &str = "at empty points";
const ANY_LINE: &str = "TURN on any line";
const FIELDS: &str = "fields of TURN";
const LONG_RECORDS: &str = "with long records";

/// What is planted below differs from the reference in one thing alone.
#[test]
fn the_right_rule_makes_no_difference() {
    for family in bound_families().into_iter().map(|family| family.thinned(10)) {
        for listing in (0..family.batches).flat_map(|batch| family.batch(batch)) {
            assert_eq!(bound_of_reference(&listing), bound_by(&listing, &RIGHT));
        }
    }
}

#[test]
fn a_round_too_few_is_found() {
    let rule = Rule { rounds: |listing, turn| most(&listing.points[0], turn), ..RIGHT };
    for part in [LOOPS, NEARLY_ALL, GREATEST] {
        assert_eq!(rule_found(part, rule), BOTH_BOUNDED);
    }
}

/// Where both have the same bound, and it is too low, a run shows it.
#[test]
fn runs_do_not_keep_to_a_round_too_few() {
    let rule = Rule { rounds: |listing, turn| most(&listing.points[0], turn), ..RIGHT };
    let low = |listing: &[u8]| bound_by(listing, &rule);
    for part in [LOOPS, NEARLY_ALL] {
        let family = bound_families().into_iter().find(|family| family.name.contains(part)).expect("it exists");
        let difference = compare_bounds(&family, &low, &low).expect_err("a run is longer");
        assert!(difference.broken.is_some_and(|why| why.starts_with("more than")));
    }
}

#[test]
fn rounds_of_another_point_are_found() {
    let of_any =
        |listing: &Listing, turn: usize| listing.points.iter().map(|point| most(point, turn)).max().unwrap_or(0) + 1;
    let of_last = |listing: &Listing, turn: usize| most(&listing.points[listing.points.len() - 1], turn) + 1;
    for rounds in [of_any, of_last] {
        assert_eq!(rule_found(LOOPS, Rule { rounds, ..RIGHT }), BOTH_BOUNDED);
    }
}

#[test]
fn rounds_of_32_bits_are_found() {
    let rule = Rule { rounds: |listing, turn| (most(&listing.points[0], turn) + 1) % (MAX as u64 + 1), ..RIGHT };
    assert_eq!(rule_found(GREATEST, rule), BOTH_BOUNDED);
    let rule = |listing: &[u8]| {
        let right = bound_of_reference(listing);
        Bound { bound: right.bound % (MAX as u64 + 1), ..right }
    };
    assert_eq!(found(GREATEST, &rule).left.number, 0);
}

#[test]
fn rounds_where_nothing_goes_back_are_found() {
    let wrong = |listing: &[u8]| {
        let right = bound_of_reference(listing);
        let turn = if right.number == 0 {
            read(listing).ok().and_then(|listing| listing.turn.map(|turn| (listing, turn)))
        } else {
            None
        };
        turn.map_or(right, |(listing, turn)| Bound {
            bound: listing.points.len() as u64 * (most(&listing.points[0], turn) + 1),
            ..right
        })
    };
    assert_eq!(found("nothing goes back", &wrong).listing.len(), 2 * LINE);
}

#[test]
fn a_way_back_to_its_own_point_left_out_is_found() {
    let rule = Rule { goes_back: |listing, at| target(listing, at).is_some_and(|target| target < at), ..RIGHT };
    for part in [TARGETS, BRANCHES, NOT_REACHED] {
        assert_eq!(rule_found(part, rule), ADMITTED);
    }
}

/// Only along edges that a step can take, and only from point 0 on.
#[test]
fn ways_back_that_are_left_out_are_found() {
    let possible = |listing: &Listing, at: usize| {
        let point = &listing.points[at];
        let mut back = edges(at, &point.instruction, &Known::at(point)).into_iter().filter(|edge| edge.to <= at);
        back.any(|edge| edge.known.is_some())
    };
    assert_eq!(rule_found(BRANCHES, Rule { goes_back: possible, ..RIGHT }), ADMITTED);
    let reached =
        |listing: &Listing, at: usize| (RIGHT.goes_back)(listing, at) && reached_points(listing).contains(&at);
    assert_eq!(rule_found(NOT_REACHED, Rule { goes_back: reached, ..RIGHT }), ADMITTED);
}

/// Whatever their claims, ways back, jumps and writers count at empty points as they do at others.
#[test]
fn empty_points_that_are_left_out_are_found() {
    let goes_back = |listing: &Listing, at: usize| !listing.points[at].is_empty() && (RIGHT.goes_back)(listing, at);
    assert_eq!(rule_found(EMPTY, Rule { goes_back, ..RIGHT }), ADMITTED);
    let is_target = |listing: &Listing, at: usize| {
        let mut from = (0..listing.points.len()).filter(|&from| !listing.points[from].is_empty());
        from.any(|from| target(listing, from) == Some(at))
    };
    // a jump from an empty point to a way back is mostly a way back too
    assert_eq!(rule_found(EMPTY, Rule { is_target, ..RIGHT }).0, WAY_BACK_NOT_COVERED);
    let writes = |point: &Point, turn: usize| !point.is_empty() && (RIGHT.writes)(point, turn);
    assert_eq!(rule_found(EMPTY, Rule { writes, ..RIGHT }), ADMITTED);
    let fit = |point: &Point, turn: usize| (RIGHT.fit)(point, turn) || point.is_empty() && takes(point, turn).is_some();
    assert_eq!(rule_found(EMPTY, Rule { fit, ..RIGHT }), ADMITTED);
}

/// A way back from an empty point that counts is covered as any other.
#[test]
fn ways_back_from_empty_points_that_are_refused_are_found() {
    let counted = |listing: &Listing, at: usize, turn: usize| {
        (RIGHT.counted)(listing, at, turn) && !listing.points[at].is_empty()
    };
    assert_eq!(rule_found(EMPTY, Rule { counted, ..RIGHT }), REFUSED);
    // beside a loop that is refused for it
    let fit = |point: &Point, turn: usize| (RIGHT.fit)(point, turn) && !point.is_empty();
    let rule = Rule { fit, ..RIGHT };
    let difference = found(EMPTY, &|listing| bound_by(listing, &rule));
    assert_eq!((difference.left.number, difference.right.number), REFUSED);
}

/// A bound with other limits of scales and of the bounds of stripes.
fn within(limits: Limits, listing: &[u8]) -> Bound {
    match step_bound_within(limits, listing) {
        Ok(bound) => Bound { number: 0, place: 0, second: 0, bound },
        Err(Refusal { number, place, second }) => Bound { number, place, second, bound: 0 },
    }
}

#[test]
fn other_limits_of_scales_and_stripes_are_found() {
    let Limits { scale, bound } = Limits::TODAY;
    for limits in [
        Limits { scale: 255, bound },
        Limits { scale, bound: Limits::EARLIER.bound },
        Limits { scale, bound: bound - 1 },
    ] {
        let difference = found(LONG_RECORDS, &|listing| within(limits, listing));
        assert_eq!((difference.right.number, difference.listing.len()), (OUT_OF_LIMITS, LINE));
    }
    let difference = found("bounds shifted", &|listing| within(Limits { scale, bound: bound + 1 }, listing));
    assert_eq!((difference.left.number, difference.right.number), (CLAIM_DOES_NOT_FOLLOW, 0));
}

/// The points that the text leads to.
fn reached_points(listing: &Listing) -> Vec<usize> {
    let (mut reached, mut ahead) = (Vec::new(), vec![0]);
    while let Some(at) = ahead.pop() {
        if !reached.contains(&at) {
            reached.push(at);
            let point = &listing.points[at];
            ahead.extend(edges(at, &point.instruction, &Known::nothing()).into_iter().map(|edge| edge.to));
        }
    }
    reached
}

#[test]
fn a_way_forward_taken_for_one_back_is_found() {
    let rule = Rule { goes_back: |listing, at| target(listing, at).is_some(), ..RIGHT };
    assert_eq!(rule_found("nothing goes back", rule), REFUSED);
    assert_eq!(rule_found(LOOPS, rule), REFUSED);
}

#[test]
fn a_jump_that_is_a_target_is_found() {
    assert_eq!(rule_found(TARGETS, Rule { is_target: |_, _| false, ..RIGHT }), ADMITTED);
    let of_others: fn(&Listing, usize) -> bool =
        |listing, at| (0..listing.points.len()).any(|from| from != at && target(listing, from) == Some(at));
    assert_eq!(rule_found(TARGETS, Rule { is_target: of_others, ..RIGHT }), ADMITTED);
    let of_jumps: fn(&Listing, usize) -> bool =
        |listing, at| listing.points.iter().any(|point| point.instruction == Instruction::Jump { target: at });
    assert_eq!(rule_found(TARGETS, Rule { is_target: of_jumps, ..RIGHT }), ADMITTED);
    let of_branches: fn(&Listing, usize) -> bool = |listing, at| {
        let branches = |from: &usize| matches!(listing.points[*from].instruction, Instruction::Branch { .. });
        (0..listing.points.len()).filter(branches).any(|from| target(listing, from) == Some(at))
    };
    assert_eq!(rule_found(TARGETS, Rule { is_target: of_branches, ..RIGHT }), ADMITTED);
    // one from behind goes back itself, and is not covered
    let of_earlier: fn(&Listing, usize) -> bool = |listing, at| (0..=at).any(|from| target(listing, from) == Some(at));
    let both = (WAY_BACK_NOT_COVERED, WAY_BACK_NOT_COVERED);
    assert_eq!(rule_found(TARGETS, Rule { is_target: of_earlier, ..RIGHT }), both);
}

#[test]
fn a_target_beside_a_way_back_that_is_refused_is_found() {
    let beside: fn(&Listing, usize) -> bool =
        |listing, at| (RIGHT.is_target)(listing, at) || at > 0 && (RIGHT.is_target)(listing, at - 1);
    assert_eq!(rule_found(TARGETS, Rule { is_target: beside, ..RIGHT }), REFUSED);
    let behind: fn(&Listing, usize) -> bool =
        |listing, at| (RIGHT.is_target)(listing, at) || (RIGHT.is_target)(listing, at + 1);
    assert_eq!(rule_found(LOOPS, Rule { is_target: behind, ..RIGHT }), REFUSED);
}

#[test]
fn a_count_anywhere_before_is_found() {
    let before: fn(&Listing, usize, usize) -> bool =
        |listing, at, turn| listing.points[..at].iter().any(|point| subtracts_into(point, turn));
    assert_eq!(rule_found(JUST_BEFORE, Rule { counted: before, ..RIGHT }), ADMITTED);
    let two_before: fn(&Listing, usize, usize) -> bool = |listing, at, turn| {
        (RIGHT.counted)(listing, at, turn) || at > 1 && subtracts_into(&listing.points[at - 2], turn)
    };
    assert_eq!(rule_found(JUST_BEFORE, Rule { counted: two_before, ..RIGHT }), ADMITTED);
    let any_subtraction: fn(&Listing, usize, usize) -> bool =
        |listing, at, _| at > 0 && (0..16).any(|register| subtracts_into(&listing.points[at - 1], register));
    assert_eq!(rule_found(REGISTERS, Rule { counted: any_subtraction, ..RIGHT }), ADMITTED);
    assert_eq!(rule_found(JUST_BEFORE, Rule { counted: |_, _, _| true, ..RIGHT }), ADMITTED);
}

#[test]
fn a_writer_that_is_not_looked_at_is_found() {
    let none: fn(&Point, usize) -> bool = |_, _| false;
    let of_another: fn(&Point, usize) -> bool = |point, turn| point.instruction.written().contains(&((turn + 1) % 16));
    let rule = |writes| Rule { writes, ..RIGHT };
    assert_eq!(rule_found(WRITERS, rule(none)), ADMITTED);
    let (right, wrong) = rule_found(WRITERS, rule(of_another));
    assert!(right != wrong);
    let kinds: [fn(&Instruction) -> bool; 6] = [
        |instruction| matches!(instruction, Instruction::Set { .. }),
        |instruction| matches!(instruction, Instruction::Copy { d, i } if d == i),
        |instruction| matches!(instruction, Instruction::Copy { .. }),
        |instruction| matches!(instruction, Instruction::Load { .. }),
        |instruction| matches!(instruction, Instruction::DivMod { .. }),
        |instruction| matches!(instruction, Instruction::Compute { kind: Arithmetic::Add | Arithmetic::Multiply, .. }),
    ];
    for kind in kinds {
        let without = |listing: &[u8]| with_writers(listing, &|point, _| !kind(&point.instruction));
        let difference = found(WRITERS, &without);
        assert_eq!((difference.left.number, difference.right.number), ADMITTED);
    }
}

/// The right rule, but that only some of the writers count.
fn with_writers(listing: &[u8], counts: &dyn Fn(&Point, usize) -> bool) -> Bound {
    let right = bound_of_reference(listing);
    if right.number != WAY_BACK_NOT_COVERED {
        return right;
    }
    let mut other = read(listing).expect("20 comes after reading");
    let turn = other.turn.unwrap_or(usize::MAX);
    let (points, rounds) = (other.points.len() as u64, other.turn.map_or(1, |turn| (RIGHT.rounds)(&other, turn)));
    for point in &mut other.points {
        if point.instruction.written().contains(&turn) && !counts(point, turn) {
            point.instruction = Instruction::Stop;
        }
    }
    let back = (0..other.points.len()).filter(|&at| (RIGHT.goes_back)(&other, at));
    match back.into_iter().find(|&at| !is_covered(&other, at, &RIGHT)) {
        Some(at) => refused(WAY_BACK_NOT_COVERED, other.points[at].line),
        None => Bound { number: 0, place: 0, second: 0, bound: points * rounds },
    }
}

#[test]
fn a_result_of_divm_that_is_not_looked_at_is_found() {
    let one_result: [fn(&Instruction, usize) -> bool; 2] = [
        |instruction, turn| matches!(*instruction, Instruction::DivMod { q, .. } if q == turn),
        |instruction, turn| matches!(*instruction, Instruction::DivMod { r, .. } if r == turn),
    ];
    for result in one_result {
        let without = |listing: &[u8]| with_writers(listing, &|point, turn| !result(&point.instruction, turn));
        assert_eq!(found(WRITERS, &without).left.number, WAY_BACK_NOT_COVERED);
    }
}

#[test]
fn a_writer_where_nothing_leads_that_is_not_looked_at_is_found() {
    let without = |listing: &[u8]| {
        let lines: Vec<u64> = read(listing)
            .map_or(vec![], |listing| reached_points(&listing).into_iter().map(|at| listing.points[at].line).collect());
        with_writers(listing, &|point, _| lines.contains(&point.line))
    };
    assert_eq!(found(WRITERS, &without).left.number, WAY_BACK_NOT_COVERED);
}

#[test]
fn an_unfit_writer_is_found() {
    let fit = |fit| Rule { fit, ..RIGHT };
    // what is there is not asked for
    let any_least: fn(&Point, usize) -> bool = |point, turn| takes(point, turn).is_some_and(|number| number >= 1);
    assert_eq!(rule_found(NUMBERS, fit(any_least)), ADMITTED);
    let one_less: fn(&Point, usize) -> bool =
        |point, turn| takes(point, turn).is_some_and(|number| number >= 1 && least(point, turn) + 1 >= number);
    assert_eq!(rule_found(NUMBERS, fit(one_less)), ADMITTED);
    let above: fn(&Point, usize) -> bool =
        |point, turn| takes(point, turn).is_some_and(|number| number >= 1 && least(point, turn) > number);
    assert_eq!(rule_found(LOOPS, fit(above)), REFUSED);
    let nothing: fn(&Point, usize) -> bool =
        |point, turn| takes(point, turn).is_some_and(|number| least(point, turn) >= number);
    assert_eq!(rule_found(NUMBERS, fit(nothing)), ADMITTED);
    let of_register: fn(&Point, usize) -> bool = |point, turn| {
        let register =
            matches!(point.instruction, Instruction::Compute { o: Operand::Variable(_), i, .. } if i == turn);
        (RIGHT.fit)(point, turn) || register && subtracts_into(point, turn)
    };
    assert_eq!(rule_found(REGISTERS, fit(of_register)), ADMITTED);
    let from_any: fn(&Point, usize) -> bool = |point, turn| match point.instruction {
        Instruction::Compute { o: Operand::Number(1..), .. } => subtracts_into(point, turn),
        _ => false,
    };
    assert_eq!(rule_found(REGISTERS, fit(from_any)), ADMITTED);
}

#[test]
fn a_branch_that_is_covered_is_found() {
    let rule = Rule { may: |_| true, ..RIGHT };
    assert_eq!(rule_found(BRANCHES, rule), ADMITTED);
    assert_eq!(rule_found(NOT_REACHED, rule), ADMITTED);
}

#[test]
fn another_of_several_named_is_found() {
    let rule = Rule { named: |uncovered| uncovered.last().copied(), ..RIGHT };
    for part in [SEVERAL, BLOCKS] {
        assert_eq!(rule_found(part, rule), (WAY_BACK_NOT_COVERED, WAY_BACK_NOT_COVERED));
    }
}

#[test]
fn twenty_before_fourteen_is_found() {
    let wrong = |listing: &[u8]| {
        let right = bound_of_reference(listing);
        if right.number != CLAIM_DOES_NOT_FOLLOW {
            return right;
        }
        let points = read(listing).expect("14 comes after reading");
        let back =
            (0..points.points.len()).find(|&at| (RIGHT.goes_back)(&points, at) && !is_covered(&points, at, &RIGHT));
        back.map_or(right, |at| refused(WAY_BACK_NOT_COVERED, points.points[at].line))
    };
    for part in [JUST_BEFORE, TARGETS, BLOCKS] {
        let difference = found(part, &wrong);
        assert_eq!((difference.left.number, difference.right.number), (CLAIM_DOES_NOT_FOLLOW, WAY_BACK_NOT_COVERED));
    }
}

#[test]
fn fourteen_without_its_second_place_is_found() {
    let wrong = |listing: &[u8]| Bound { second: 0, ..bound_of_reference(listing) };
    assert_eq!(found(JUST_BEFORE, &wrong).left.number, CLAIM_DOES_NOT_FOLLOW);
}

fn is_turn(line: &[u8]) -> bool {
    line.len() == LINE && matches!(read_line(line), Ok(Line::Turn(_)))
}

/// A wrong reader that lets a TURN line stand behind other lines that satisfy this.
fn admitted_behind(listing: &[u8], before: fn(&[u8]) -> bool) -> Bound {
    let right = bound_of_reference(listing);
    let lines: Vec<&[u8]> = listing.chunks(LINE).collect();
    let at = right.place as usize - usize::from(right.place > 0);
    if right.number != BAD_ORDER || !is_turn(lines[at]) || !lines[..at].iter().all(|line| before(line)) {
        return right;
    }
    let mut moved = lines.clone();
    moved[..=at].rotate_right(1);
    bound_of_reference(&moved.concat())
}

#[test]
fn turn_on_a_later_line_is_found() {
    let claims = |line: &[u8]| matches!(&line[..4], b"LEAS" | b"MOST" | b"STRP");
    for before in [claims, |_: &[u8]| true] {
        let difference = found(ANY_LINE, &|listing| admitted_behind(listing, before));
        assert_eq!(difference.left.number, BAD_ORDER);
        assert!(difference.listing.len() <= 3 * LINE, "{difference}");
    }
}

/// A wrong reader that looks where a TURN line stands before it looks at its register.
#[test]
fn six_before_five_is_found() {
    let wrong = |listing: &[u8]| {
        let right = bound_of_reference(listing);
        let line = listing.chunks(LINE).nth(right.place.saturating_sub(1) as usize).unwrap_or_default();
        if right.number == OUT_OF_LIMITS && right.place > 1 && line.starts_with(b"TURN") {
            return refused(BAD_ORDER, right.place);
        }
        right
    };
    assert_eq!(found(ANY_LINE, &wrong).listing.len(), 2 * LINE);
    assert_eq!(found(FIELDS, &wrong).listing.len(), 2 * LINE);
}

/// A wrong reader that forgets a TURN line once it is read.
#[test]
fn turn_that_is_nothing_is_found() {
    let wrong = |listing: &[u8]| match listing.chunks(LINE).next() {
        Some(first) if is_turn(first) => {
            let mut right = bound_of_reference(&listing[LINE..]);
            right.place += u64::from(right.place > 0);
            right.second += u64::from(right.second > 0);
            right
        }
        _ => bound_of_reference(listing),
    };
    for part in [LOOPS, ANY_LINE, "damaged"] {
        found(part, &wrong);
    }
}
