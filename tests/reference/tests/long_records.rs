//! Records of up to 4,095 bytes: scales and bounds at and beside their ends, written and shifted, products, addresses
//! and runs. Each case is asked within the limits of today and within the earlier ones.

use lines::listing;
use reference::{
    check_within, claim_span_within, run, run_within, set_line_within, step_bound_within, Answer, Field, Limits,
    Outcome, Refusal, Run, State,
};

/// The greatest bound of a stripe.
const END: i128 = 70_368_744_177_664;
const EARLIER_END: i128 = 4_398_046_511_104;

const fn pass(points: u64) -> Answer {
    Answer { number: 0, place: 0, second: 0, points }
}

const fn fail(number: u64, place: u64) -> Answer {
    Answer { number, place, second: 0, points: 0 }
}

const fn claim_fails(place: u64, second: u64) -> Answer {
    Answer { number: 14, place, second, points: 0 }
}

#[track_caller]
fn expect(notation: &str, earlier: Answer, today: Answer) {
    let text = listing(notation);
    assert_eq!(check_within(Limits::EARLIER, &text), earlier, "earlier: {notation}");
    assert_eq!(check_within(Limits::TODAY, &text), today, "today: {notation}");
}

#[track_caller]
fn expect_today(notation: &str, today: Answer) {
    assert_eq!(check_within(Limits::TODAY, &listing(notation)), today, "{notation}");
}

/// Scales, and whether they are within the limits: the earlier ones, and those of today.
const SCALES: [(i128, bool, bool); 9] = [
    (0, false, false),
    (1, true, true),
    (255, true, true),
    (256, false, true),
    (300, false, true),
    (4_094, false, true),
    (4_095, false, true),
    (4_096, false, false),
    (9_999, false, false),
];

#[test]
fn scales_go_up_to_4095() {
    for (scale, earlier, today) in SCALES {
        let stripe = format!("STRP 0 {scale} 1 _ _ 0; STOP");
        let answer = |within| if within { pass(1) } else { fail(5, 1) };
        expect(&stripe, answer(earlier), answer(today));
        let room = "LEAS 16 _ _ _ _ 4; LEAS 17 _ _ _ _ 4; MOST 1 _ _ _ _ 0;";
        for line in
            [format!("LOAD 0 4 0 {scale} 1 0"), format!("LOAD 0 4 1 {scale} 1 0"), format!("STOR 0 4 _ {scale} 1 0")]
        {
            let answer = |within| if within { pass(2) } else { fail(5, 4) };
            expect(&format!("{room} {line}; STOP"), answer(earlier), answer(today));
        }
    }
}

#[test]
fn written_bounds_go_up_to_both_ends() {
    let answer = |within| if within { pass(1) } else { fail(5, 1) };
    for (b, earlier, today) in [
        (EARLIER_END - 1, true, true),
        (EARLIER_END, true, true),
        (EARLIER_END + 1, false, true),
        (END - 1, false, true),
        (END, false, true),
        (END + 1, false, false),
    ] {
        for b in [b, -b] {
            expect(&format!("STRP 0 1 1 _ _ {b}; STOP"), answer(earlier), answer(today));
        }
    }
    for b in ["99999999999999", "-99999999999999", "999999999999999"] {
        expect(&format!("STRP 0 1 1 _ _ {b}; STOP"), fail(5, 1), fail(5, 1));
    }
}

#[test]
fn the_least_bound_fills_its_columns() {
    let line = listing(&format!("STRP 0 1 1 _ _ -{END}; STOP"));
    assert_eq!(&line[..40], b"STRP   0   1   1        -70368744177664\n");
    assert_eq!(check_within(Limits::TODAY, &line), pass(1));
}

/// Where a register is moved by 7: x, the scale, y and z of a stripe, the step, and how far the bound moves.
fn shifts(scale: i128) -> Vec<(String, &'static str, i128)> {
    let (add, subtract) = ("ADDW 0 0 _ _ 1 7", "SUBW 0 0 _ _ 1 7");
    vec![
        (format!("0 {scale} 2 _"), add, 7),
        (format!("2 {scale} 0 _"), subtract, 7 * scale),
        (format!("2 {scale} 1 0"), subtract, 7 * scale),
        (format!("2 {scale} 0 0"), subtract, 14 * scale),
        (format!("0 {scale} 0 _"), subtract, 7 * scale - 7),
        (format!("0 {scale} 0 0"), subtract, 14 * scale - 7),
        (format!("0 {scale} 3 0"), subtract, 7 * scale - 7),
    ]
}

/// The stripe before the step, and on line 5 the one after it.
fn shifted(names: &str, step: &str, b: i128, goal: i128) -> String {
    format!("LEAS 0 _ _ _ _ 7; MOST 0 _ _ _ _ 900; STRP {names} _ {b}; {step}; STRP {names} _ {goal}; STOP")
}

#[test]
fn a_shifted_bound_is_kept_at_the_greatest_and_dropped_past_it() {
    for scale in [1, 2, 255, 256, 300, 4_095] {
        for (names, step, by) in shifts(scale) {
            expect_today(&shifted(&names, step, END - by, END), pass(2));
            expect_today(&shifted(&names, step, END - by, END - 1), pass(2));
            // one past the end, nothing is left of it
            for goal in [END, END - 1, 0] {
                let answer = if by == 0 { fail(5, 3) } else { claim_fails(4, 5) };
                expect_today(&shifted(&names, step, END - by + 1, goal), answer);
            }
        }
    }
}

#[test]
fn a_bound_shifted_past_the_earlier_end_is_kept() {
    for (names, step, by) in [1, 2, 255].into_iter().flat_map(shifts).filter(|(_, _, by)| *by > 0) {
        expect(&shifted(&names, step, EARLIER_END - by, EARLIER_END), pass(2), pass(2));
        expect(&shifted(&names, step, EARLIER_END - by + 1, EARLIER_END), claim_fails(4, 5), pass(2));
        expect(&shifted(&names, step, EARLIER_END, EARLIER_END), claim_fails(4, 5), pass(2));
    }
}

/// Register 2 is at least `top` above register 0, and 0 at least b above 1. After the step a goal is asked that the
/// second stripe shows as a link: no ranges show it.
fn lowered(step: &str, top: i128, b: i128, goal: i128) -> String {
    format!(
        "LEAS 0 _ _ _ _ 7; MOST 0 _ _ _ _ 900; MOST 1 _ _ _ _ 900; STRP 2 1 0 _ _ {top}; STRP 0 1 1 _ _ {b}; {step};
         STRP 2 1 1 _ _ {goal}; STOP"
    )
}

/// What the top has to begin with, so that it ends at `end`.
fn lowering(end: i128) -> [(&'static str, i128); 2] {
    [("ADDW 1 1 _ _ 1 7", end), ("SUBW 0 0 _ _ 1 7", end - 7)]
}

#[test]
fn a_shifted_bound_is_kept_at_the_least_and_dropped_past_it() {
    for (step, top) in lowering(END) {
        expect_today(&lowered(step, top, -END + 7, 0), pass(2));
        expect_today(&lowered(step, top, -END + 7, 1), claim_fails(6, 7));
        for goal in [-1, -8] {
            expect_today(&lowered(step, top, -END + 6, goal), claim_fails(6, 7));
            expect_today(&lowered(step, top, -END, goal), claim_fails(6, 7));
        }
    }
    for (step, top) in lowering(EARLIER_END) {
        expect(&lowered(step, top, -EARLIER_END + 7, 0), pass(2), pass(2));
        expect(&lowered(step, top, -EARLIER_END + 6, -1), claim_fails(6, 7), pass(2));
        expect(&lowered(step, top, -EARLIER_END, -7), claim_fails(6, 7), pass(2));
        expect(&lowered(step, top, -EARLIER_END, -6), claim_fails(6, 7), claim_fails(6, 7));
    }
}

/// A product of register 0, which is at most `hi`, and a stripe of some scale after it.
fn product(hi: i128, factor: i128, scale: i128) -> String {
    format!("MOST 0 _ _ _ _ {hi}; MULW 1 0 _ _ 1 {factor}; STRP 1 {scale} 0 _ _ 0; STOP")
}

#[test]
fn a_product_adds_a_stripe_for_factors_up_to_4095() {
    expect(&product(9, 255, 255), pass(2), pass(2));
    expect(&product(9, 256, 256), fail(5, 3), pass(2));
    expect(&product(9, 4_095, 4_095), fail(5, 3), pass(2));
    expect(&product(9, 4_096, 4_096), fail(5, 3), fail(5, 3));
    // a stripe of another scale than the factor is not added
    expect(&product(9, 4_096, 4_095), fail(5, 3), claim_fails(2, 3));
    expect(&product(9, 4_095, 4_094), fail(5, 3), claim_fails(2, 3));
    for factor in [256, 257, 4_096, 4_097, 65_537] {
        expect(&product(9, factor, 1), claim_fails(2, 3), claim_fails(2, 3));
        expect(&product(9, factor, 255), claim_fails(2, 3), claim_fails(2, 3));
    }
    expect(&product(9, 0, 1), claim_fails(2, 3), claim_fails(2, 3));
}

#[test]
fn a_long_product_that_may_wrap_adds_nothing() {
    for factor in [256, 300, 4_095] {
        let most = i128::from(u32::MAX) / factor;
        expect_today(&product(most, factor, factor), pass(2));
        expect_today(&product(most + 1, factor, factor), claim_fails(2, 3));
    }
    expect_today("MOST 0 _ _ _ _ 9; MULW 0 0 _ _ 1 300; STRP 0 300 0 _ _ -2000; STOP", claim_fails(2, 3));
}

/// The goal's bound grows by a × m for each link, whatever the limits.
#[test]
fn the_bound_of_a_goal_has_no_limits() {
    let chain = |m: [i128; 3], goal: i128| {
        let links: String = (0..3).map(|at| format!("STRP {} 1 {at} _ _ {};", at + 1, m[at])).collect();
        format!("{links} STRP 9 4095 3 _ _ 5; JUMP _ _ _ 1; STRP 9 4095 0 _ _ {goal}; STOP")
    };
    expect_today(&chain([0, 0, 0], 5), pass(2));
    expect_today(&chain([END, -END, 0], 5), pass(2));
    // by the stripe that stands, with sums far above the limits on the way to it
    expect_today(&chain([-END, END, 0], 5), pass(2));
    expect_today(&chain([-END, 0, END], 5), pass(2));
    expect_today(&chain([0, -END, END], 5), pass(2));
    expect_today(&chain([-END, END, 0], 6), claim_fails(5, 6));
    expect_today(&chain([-END, END, 1], 4_100), pass(2));
    expect_today(&chain([-END, END, 1], 4_101), claim_fails(5, 6));
    // far above and far below what ranges show
    expect_today(&chain([-END, -END, -END], -20_000_000_000_000), pass(2));
    expect_today(&chain([-END, -END, -END], -17_000_000_000_000), claim_fails(5, 6));
    expect_today(&chain([END, END, END], END), pass(2));
    expect_today(&chain([-END, END, END], END), pass(2));
    expect_today(&chain([-END, -END, END], END), claim_fails(5, 6));
}

#[test]
fn an_access_of_a_long_record_ends_with_its_table() {
    let by_range = |scale: i128, hi: i128, end: i128, size: i128| {
        let claims = format!("LEAS 16 _ _ _ _ {size}; MOST 1 _ _ _ _ {hi};");
        format!("{claims} LOAD 0 4 0 {scale} 1 {}; STOP", end - 4)
    };
    for (scale, hi) in [(256, 255), (300, 217), (4_095, 15)] {
        let size = scale * (hi + 1);
        let earlier = fail(5, 3);
        expect(&by_range(scale, hi, scale, size), earlier, pass(2));
        expect(&by_range(scale, hi, scale, size - 1), earlier, fail(13, 3));
        expect(&by_range(scale, hi, scale + 1, size), earlier, fail(13, 3));
        expect(&by_range(scale, hi + 1, scale, size), earlier, fail(13, 3));
        let by_stripe = |b: i128| format!("STRP 17 {scale} 1 _ _ {b}; STOR 1 4 _ {scale} 1 {}; STOP", scale - 4);
        expect(&by_stripe(scale), fail(5, 1), pass(2));
        expect(&by_stripe(scale - 1), fail(5, 1), fail(13, 2));
    }
}

/// Modulo 2 to the power 32 each of these addresses is within the table.
#[test]
fn an_address_of_a_long_record_never_wraps() {
    for (scale, index) in [(4_095, 1_048_833_i128), (4_094, 1_049_089), (256, 16_777_216), (4_095, 4_293_918_464)] {
        let address = scale * index;
        let wrapped = address % (1 << 32);
        assert!(address >= 1 << 32 && wrapped < 65_000, "{scale} times {index} is {wrapped}");
        let claims = format!("LEAS 1 _ _ _ _ {index}; LEAS 17 _ _ _ _ 65536; MOST 1 _ _ _ _ {index};");
        expect_today(&format!("{claims} STOR 1 4 _ {scale} 1 0; STOP"), fail(13, 4));
    }
    let greatest = "LEAS 17 _ _ _ _ 65536; STOR 1 4 _ 4095 1 65535; STOP";
    expect_today(greatest, fail(13, 2));
}

/// A loop over records of some length: two bytes at the end of each record of the trays go to the start of the result
/// with the same number.
fn walk(length: i128) -> Vec<u8> {
    let whole = format!("STRP 16 {length} 1 _ _ 0; STRP 17 {length} 1 _ _ 0;");
    let here = format!("STRP 16 {length} 0 _ _ {length}; STRP 17 {length} 0 _ _ {length};");
    listing(&format!(
        "{whole} SETC 0 _ _ _ _ 0; {whole} BLTU _ 0 _ 3 0 1; STOP; {whole} {here} LOAD 2 2 0 {length} 0 {};
         {whole} {here} STOR 2 4 _ {length} 0 0; {whole} ADDW 0 0 _ _ 1 1; {whole} JUMP _ _ _ 1",
        length - 2
    ))
}

fn at(point: u64, first: [u32; 3]) -> State {
    let mut state = State { point, registers: [0; 16] };
    state.registers[..3].copy_from_slice(&first);
    state
}

/// Every byte of a record is its place in the record, modulo 251.
fn trays(length: usize, records: usize) -> Vec<u8> {
    (0..length * records).map(|at| (at % length % 251) as u8).collect()
}

#[test]
fn records_are_walked_by_a_loop() {
    for (length, records) in [(300, 3), (256, 256), (4_095, 16), (4_095, 0)] {
        let text = walk(length as i128);
        assert_eq!(check_within(Limits::TODAY, &text), pass(7));
        let last = [(length - 2) % 251, (length - 1) % 251];
        let loaded = (last[0] + 256 * last[1]) as u32;
        let (trays, mut results) = (trays(length, records), vec![9; length * records]);
        let ran = run(&text, at(0, [7, records as u32, 0]), &trays, &mut results, u32::MAX);
        let end = at(2, [records as u32, records as u32, if records == 0 { 0 } else { loaded }]);
        // one step before the loop, five for each record, and one that leaves it
        let steps = 1 + 5 * records as u64 + 1;
        assert_eq!(ran, Run { outcome: Outcome::Stopped, state: end, steps });
        for record in results.chunks(length) {
            assert_eq!(record[..4], [last[0] as u8, last[1] as u8, 0, 0]);
            assert!(record[4..].iter().all(|&byte| byte == 9));
        }
    }
}

#[test]
fn tables_too_short_for_their_records_are_turned_back() {
    let text = walk(300);
    let refused = |number, place| Outcome::Refused(Refusal { number, place, second: 0 });
    let outcome = |limits, records: u32, trays: usize, results: usize| {
        let (state, mut lent) = (at(0, [0, records, 0]), vec![9; results]);
        let ran = run_within(limits, &text, state, &vec![0; trays], &mut lent, 4);
        assert!(
            !matches!(ran.outcome, Outcome::Refused(_))
                || ran.state == state && ran.steps == 0 && lent == vec![9; results]
        );
        ran.outcome
    };
    assert_eq!(outcome(Limits::TODAY, 2, 600, 600), Outcome::Paused);
    assert_eq!(outcome(Limits::TODAY, 2, 599, 600), refused(17, 0));
    assert_eq!(outcome(Limits::TODAY, 2, 600, 599), refused(17, 0));
    assert_eq!(outcome(Limits::TODAY, 3, 899, 900), refused(17, 0));
    // 300 times this is 0 modulo 2 to the power 32
    assert_eq!(outcome(Limits::TODAY, 1 << 30, 65_536, 65_536), refused(17, 0));
    assert_eq!(outcome(Limits::EARLIER, 2, 600, 600), refused(5, 1));
}

/// A state is admitted by what a stripe says over whole numbers.
#[test]
fn stripes_of_the_greatest_scale_are_met_and_missed() {
    let max = i128::from(u32::MAX);
    for (a, y, z) in [(4_095, max, max), (4_095, max, 0), (256, 1 << 24, 0), (4_095, 1, 0)] {
        let b = 5 - a * (y + z);
        for (b, met) in [(b, true), (b + 1, false), (b - 1, true)] {
            let text = listing(&format!("STRP 0 {a} 1 2 _ {b}; STOP"));
            let ran = run(&text, at(0, [5, y as u32, z as u32]), &[], &mut [], 0);
            assert_eq!(ran.outcome == Outcome::Stopped, met, "{a} {y} {z} {b}");
        }
    }
}

#[test]
fn other_calls_keep_to_the_limits() {
    let text = listing("TURN 1; MOST 1 _ _ _ _ 9; STRP 17 300 0 _ _ 0; STOP");
    assert_eq!(step_bound_within(Limits::TODAY, &text), Ok(1));
    assert_eq!(claim_span_within(Limits::TODAY, &text, 0), Ok(0..120));
    let refused = Refusal { number: 5, place: 3, second: 0 };
    assert_eq!(step_bound_within(Limits::EARLIER, &text), Err(refused));
    assert_eq!(claim_span_within(Limits::EARLIER, &text, 0), Err(refused));
    let fields =
        [Field::Number(17), Field::Number(300), Field::Number(0), Field::Blank, Field::Blank, Field::Number(0)];
    let mut set = text.clone();
    let refused = Refusal { number: 5, place: 4, second: 0 };
    assert_eq!(set_line_within(Limits::EARLIER, b"STRP", &fields, 4, &mut set), Err(refused));
    assert_eq!(set, text);
    assert_eq!(set_line_within(Limits::TODAY, b"STRP", &fields, 4, &mut set), Ok(()));
    assert_eq!(set[120..], text[80..120]);
}
