//! States and tables: such as meet the claims of a point, such as miss one by a little, and any at all.

use crate::families::pieces::value;
use crate::random::Random;
use reference::{
    Claim, Known, Listing, Range, State, Stripe, Whole, MAX, REGISTERS, RESULTS_SIZE, SIZE_LIMIT, TRAYS_SIZE, VARIABLES,
};

const TRIES: usize = 6;
const REPAIRS: usize = 24;
const SMALL_TABLE: Whole = 80;

/// A state and the tables lent with it.
#[derive(Clone, Debug)]
pub struct Start {
    pub state: State,
    pub trays: Vec<u8>,
    pub results: Vec<u8>,
}

/// The values of all variables.
type Values = [Whole; VARIABLES];

pub fn bytes(random: &mut Random, count: usize) -> Vec<u8> {
    let mut bytes = Vec::with_capacity(count + 8);
    while bytes.len() < count {
        bytes.extend(random.draw().to_le_bytes());
    }
    bytes.truncate(count);
    // extreme bytes in some tables
    match random.below(8) {
        0 => bytes.fill(0),
        1 => bytes.fill(255),
        _ => {}
    }
    bytes
}

fn start(random: &mut Random, point: usize, values: &Values) -> Start {
    let registers = std::array::from_fn(|v| values[v] as u32);
    let trays = bytes(random, values[TRAYS_SIZE] as usize);
    let results = bytes(random, values[RESULTS_SIZE] as usize);
    Start { state: State { point: point as u64, registers }, trays, results }
}

/// Values within their ranges, often at the ends.
fn within(random: &mut Random, v: usize, range: Range) -> Whole {
    let width = range.hi - range.lo;
    let near = random.between(0, width.min(40));
    if v >= REGISTERS && random.percent(90) {
        return range.lo + random.between(0, width.min(SMALL_TABLE));
    }
    match random.below(8) {
        0 | 1 => range.lo,
        2 => range.hi,
        3 => range.hi - near,
        4 => range.lo + random.between(0, width),
        5 => value(random).clamp(range.lo, range.hi),
        _ => range.lo + near,
    }
}

fn holds(stripe: &Stripe, values: &Values) -> bool {
    room(stripe, values) >= 0
}

/// x − a × (y + z) − b.
fn room(stripe: &Stripe, values: &Values) -> Whole {
    values[stripe.x] - stripe.a * (values[stripe.y] + stripe.z.map_or(0, |z| values[z])) - stripe.b
}

/// Moves one variable of the stripe so far within its range that the stripe holds, if that can be.
fn repair(random: &mut Random, stripe: &Stripe, known: &Known, values: &mut Values) {
    let lacks = -room(stripe, values);
    let slack = random.pick(&[0, 0, 0, 1, 3]);
    let lowered = lacks.div_euclid(stripe.a) + Whole::from(lacks.rem_euclid(stripe.a) > 0) + slack;
    let (v, to) = match random.below(3) {
        0 => (stripe.x, values[stripe.x] + lacks + slack),
        1 => (stripe.y, values[stripe.y] - lowered),
        _ => {
            let v = stripe.z.unwrap_or(stripe.y);
            (v, values[v] - lowered)
        }
    };
    let range = known.ranges[v];
    values[v] = to.clamp(range.lo, range.hi);
}

fn meeting_values(random: &mut Random, known: &Known) -> Option<Values> {
    if known.has_empty_range() {
        return None;
    }
    for _ in 0..TRIES {
        let mut values: Values = std::array::from_fn(|v| within(random, v, known.ranges[v]));
        for _ in 0..REPAIRS {
            match known.stripes.iter().find(|stripe| !holds(stripe, &values)) {
                Some(stripe) => repair(random, stripe, known, &mut values),
                None => return Some(values),
            }
        }
    }
    None
}

/// A state that meets the claims of some point of the listing, if a few tries find one.
pub fn meeting(random: &mut Random, listing: &Listing) -> Option<Start> {
    (0..TRIES).find_map(|_| {
        let point = random.below(listing.points.len());
        meeting_at(random, listing, point)
    })
}

/// The same for one point.
pub fn meeting_at(random: &mut Random, listing: &Listing, point: usize) -> Option<Start> {
    let values = meeting_values(random, &Known::at(&listing.points[point]))?;
    Some(start(random, point, &values))
}

/// A state at a point that is empty, if there is one: variables without a value at one of their ends, the others within
/// their ranges.
pub fn at_empty(random: &mut Random, listing: &Listing) -> Option<Start> {
    let empty: Vec<usize> = (0..listing.points.len()).filter(|&at| listing.points[at].is_empty()).collect();
    let at = (!empty.is_empty()).then(|| random.pick(&empty))?;
    let ranges = Known::at(&listing.points[at]).ranges;
    let values = std::array::from_fn(|v| match ranges[v] {
        Range { lo, hi } if lo > hi => random.pick(&[lo, hi]),
        range => within(random, v, range),
    });
    Some(start(random, at, &values))
}

/// A state that would meet the claims of some point, but for one of them, by as little as may be.
pub fn missing(random: &mut Random, listing: &Listing) -> Option<Start> {
    let claimed: Vec<usize> = (0..listing.points.len()).filter(|&at| !listing.points[at].claims.is_empty()).collect();
    if claimed.is_empty() {
        return None;
    }
    (0..TRIES).find_map(|_| {
        let at = random.pick(&claimed);
        let point = &listing.points[at];
        let mut values = meeting_values(random, &Known::at(point))?;
        let claim = point.claims[random.below(point.claims.len())].claim;
        let by = random.pick(&[1, 1, 1, 2, 40]);
        break_claim(random, &claim, by, &mut values)?;
        Some(start(random, at, &values))
    })
}

/// Moves one variable so far that the claim no longer holds; none where that would leave what it can hold.
fn break_claim(random: &mut Random, claim: &Claim, by: Whole, values: &mut Values) -> Option<()> {
    let (v, to) = match *claim {
        Claim::Least { v, value } => (v, value - by),
        Claim::Most { v, value } => (v, value + by),
        Claim::Stripe(stripe) => {
            let room = room(&stripe, values);
            if random.percent(50) {
                (stripe.x, values[stripe.x] - room - by)
            } else {
                (stripe.y, values[stripe.y] + room.div_euclid(stripe.a) + by)
            }
        }
    };
    let most = if v < REGISTERS { MAX } else { SIZE_LIMIT };
    if !(0..=most).contains(&to) {
        return None;
    }
    values[v] = to;
    Some(())
}

/// Any registers over tables of any size allowed, at any of the first points.
pub fn any(random: &mut Random, points: usize) -> Start {
    let mut values: Values = std::array::from_fn(|_| value(random));
    for v in [TRAYS_SIZE, RESULTS_SIZE] {
        values[v] = within(random, v, Range::SIZE);
    }
    let point = random.below(points);
    start(random, point, &values)
}
