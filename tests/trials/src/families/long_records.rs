//! Long records: stripes, accesses and products with scales at and beside the limits of today and the earlier ones,
//! addresses that a narrow number would wrap, and routines over records of 256 to 4,095 bytes.

use super::far_bounds::near_end;
use super::routines::long_records;
use super::turns::{count, counted_with};
use super::{nudges, pieces};
use crate::draft::{Draft, DraftPoint};
use crate::random::Random;
use reference::{
    Arithmetic, Claim, Instruction, Limits, Operand, Stripe, Whole, MAX, REGISTERS, RESULTS_SIZE, SIZE_LIMIT,
    TRAYS_SIZE, VARIABLES,
};

pub const SCALES: [Whole; 16] = [1, 2, 3, 16, 254, 255, 256, 257, 300, 511, 512, 1_000, 2_048, 4_094, 4_095, 4_095];
/// The ends of the limits, what has the same low bits as a scale, and what wraps.
const FACTORS: [Whole; 20] =
    [0, 1, 2, 254, 255, 256, 257, 300, 511, 512, 1_000, 4_094, 4_095, 4_095, 4_096, 4_097, 4_351, 65_537, 1 << 31, MAX];
const CHANGES: usize = 8;

pub fn scale(random: &mut Random) -> Whole {
    random.pick(&SCALES)
}

/// The scale, seldom one that is none.
fn written_scale(random: &mut Random, scale: Whole) -> Whole {
    if random.percent(4) {
        random.pick(&[0, 4_096, 4_097, 9_999])
    } else {
        scale
    }
}

/// A scale for a number: the number itself more often than not, or what it may be taken for.
fn taken_for(random: &mut Random, number: Whole) -> Whole {
    let others = [number - 1, number + 1, number % 256, number % 4_096, number.min(255), number.min(4_095)];
    let taken = if random.percent(60) { number } else { random.pick(&others) };
    if (1..=4_096).contains(&taken) {
        taken
    } else {
        1
    }
}

/// A stripe of any scale that a step leaves as it is, and after the step one of the same scale or nearly so.
pub fn stripes(random: &mut Random) -> Vec<Vec<u8>> {
    let a = scale(random);
    let (x, y, z) = (random.pick(&[1, 16, 17]), 2, random.percent(30).then_some(3));
    let (b, slip) = (random.pick(&[0, 5, -7, a, 65_000]), random.pick(&[0, 0, 0, -1, 1]));
    let mut draft = Draft::default();
    let steps =
        [Instruction::Jump { target: 1 }, Instruction::Copy { d: 4, i: y }, Instruction::Set { d: 9, number: 4_095 }];
    let step = random.pick(&steps);
    draft.push(step).claim(Claim::Stripe(Stripe { x, a: written_scale(random, a), y, z, b }));
    let y = if matches!(step, Instruction::Copy { .. }) && random.percent(60) { 4 } else { y };
    let goal = Stripe { x, a: taken_for(random, a), y, z, b: b + slip };
    draft.push(Instruction::Stop).claim(Claim::Stripe(goal));
    vec![draft.text()]
}

/// A product by a factor at or beside the limits, and after it a stripe of the factor's scale or nearly so.
pub fn products(random: &mut Random) -> Vec<Vec<u8>> {
    let factor = random.pick(&FACTORS);
    let (d, i) = (1, random.pick(&[2, 2, 2, 2, 16, 1]));
    let most = MAX / factor.max(1);
    let hi = random.pick(&[most, most, most + 1, 9]).min(pieces::greatest(i));
    let mut draft = Draft::default();
    let point = draft.push(Instruction::Compute { kind: Arithmetic::Multiply, d, i, o: Operand::Number(factor) });
    point.claim(Claim::Most { v: i, value: hi });
    let stripe = Stripe { x: d, a: taken_for(random, factor), y: i, z: None, b: random.pick(&[0, 0, 0, 0, 1, -1]) };
    let next = draft.push(Instruction::Stop);
    next.claim(Claim::Stripe(stripe));
    if random.percent(20) {
        next.claim(Claim::Most { v: d, value: (hi * factor - random.pick(&[0, 1])).clamp(0, MAX) });
    }
    vec![draft.text()]
}

/// A load or a store.
fn accessing(random: &mut Random, table: usize, scale: Whole, i: usize, width: Whole, offset: Whole) -> Instruction {
    if table == 1 && random.percent(50) {
        return Instruction::Store { stored: random.below(VARIABLES), width, scale, i, offset };
    }
    Instruction::Load { d: random.below(REGISTERS), width, table: table as Whole, scale, i, offset }
}

/// An access of any scale at the end of its table, shown by a stripe, by a link to one, or by ranges, or nearly so.
pub fn accesses(random: &mut Random) -> Vec<Vec<u8>> {
    let (a, width, table) = (scale(random), pieces::width(random), random.below(2));
    let (size, i) = (TRAYS_SIZE + table, random.pick(&[1, 2]));
    let hi = random.between(0, SIZE_LIMIT / a);
    let offset = random.pick(&[0, 1, a - width, 65_535, SIZE_LIMIT - a * hi - width]).clamp(0, 65_535);
    let slip = random.pick(&[0, 0, 0, 1, -1]);
    let written = written_scale(random, a);
    let instruction = accessing(random, table, written, i, width, offset);
    let mut draft = Draft::default();
    let point = draft.push(instruction);
    let shown = Stripe { x: size, a: taken_for(random, a), y: i, z: None, b: offset + width + slip };
    match random.below(3) {
        0 => point.claim(Claim::Stripe(shown)),
        1 => {
            let m = random.between(-2, 2);
            point.claim(Claim::Stripe(Stripe { x: 5, a: 1, y: i, z: None, b: m }));
            point.claim(Claim::Stripe(Stripe { y: 5, b: shown.b - a * m, ..shown }));
        }
        _ => claim_ranges(point, i, hi, size, a * hi + offset + width + slip),
    }
    draft.push(Instruction::Stop);
    vec![draft.text()]
}

/// The greatest value of the index and the least size, where these may be claimed.
fn claim_ranges(point: &mut DraftPoint, i: usize, hi: Whole, size: usize, least: Whole) {
    point.claim(Claim::Most { v: i, value: hi.min(pieces::greatest(i)) });
    if (0..=SIZE_LIMIT).contains(&least) {
        point.claim(Claim::Least { v: size, value: least });
    }
}

/// An access with an index up to the greatest, so that its address is near 2 to the power 44, or is within the table
/// where high bits are lost.
pub fn addresses(random: &mut Random) -> Vec<Vec<u8>> {
    let (a, width, table) = (scale(random), pieces::width(random), random.below(2));
    let (size, i) = (TRAYS_SIZE + table, random.pick(&[1, 2, 2, 16, 17]));
    let wraps = (1 << 32) * random.between(1, a) / a;
    let any = pieces::value(random);
    let (inside, most) = (random.between(0, SIZE_LIMIT / a), pieces::greatest(i));
    let index = random.pick(&[MAX, MAX - 1, wraps, wraps + 1, wraps + 1, inside, inside, inside, any]).min(most);
    let offset = random.pick(&[0, 0, 1, 4_095, 65_535]);
    let end = a * index + offset + width;
    let lost = random.pick(&[1 << 16, 1 << 32, 1 << 32, 1 << 40]);
    let least = random.pick(&[end, end - 1, end % lost, end % lost, SIZE_LIMIT, SIZE_LIMIT]);
    let instruction = accessing(random, table, a, i, width, offset);
    let mut draft = Draft::default();
    let point = draft.push(instruction);
    claim_ranges(point, i, index, size, least);
    if random.percent(30) {
        point.claim(Claim::Least { v: i, value: index });
    }
    draft.push(Instruction::Stop);
    vec![draft.text()]
}

/// One routine that passes, with loops over long records.
pub fn routines(random: &mut Random) -> Vec<Vec<u8>> {
    vec![long_records(random).text()]
}

/// Several changes of such a routine, each of one number.
pub fn nudged(random: &mut Random) -> Vec<Vec<u8>> {
    let text = long_records(random).text();
    (0..CHANGES).map(|_| nudges::nudge(random, &text)).collect()
}

/// A loop that counts down, with a stripe of any scale or a far bound claimed at every point, and the same with one
/// number nudged.
pub fn in_loops(random: &mut Random) -> Vec<Vec<u8>> {
    let most = random.between(0, 6);
    let mut count = count(random, most, 1);
    let (a, end) = (scale(random), Limits::TODAY.bound);
    let far = -near_end(random).abs().min(end);
    let x = random.pick(&[TRAYS_SIZE, RESULTS_SIZE]);
    let b = random.pick(&[-a * 3, -a * MAX, far, far]);
    count.kept.push(Claim::Stripe(Stripe { x, a, y: count.index, z: None, b }));
    let loops = random.pick(&[1, 1, 2]);
    let text = counted_with(random, count, loops).draft.text();
    vec![nudges::nudge(random, &text), text]
}
