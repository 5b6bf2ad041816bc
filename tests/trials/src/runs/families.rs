//! The families of runs. Each is made of batches, and each batch comes from a seed of its own, so that any run can be
//! made again from the family and the batch.

use super::call::Call;
use super::resume::budget;
use super::starts::{any, bytes, meeting, meeting_at, missing, Start};
use super::{dead_stretches, long_records, quotients, remainders, turns};
use crate::draft::{Draft, DraftPoint};
use crate::families::{damage, dealing, empty_points, limits, nudges, pieces, probes, routine};
use crate::random::Random;
use lines::listing;
use reference::{
    check, read, Arithmetic, Claim, Instruction, Listing, Operand, State, Stripe, RESULTS_SIZE, TRAYS_SIZE,
};

/// A call, and how many runs it begins: each later one takes up the state handed back.
pub struct Trial {
    pub call: Call,
    pub runs: usize,
}

pub struct RunFamily {
    pub name: &'static str,
    seed: u64,
    pub batches: u64,
    make: fn(&mut Random) -> Vec<Trial>,
}

impl RunFamily {
    /// The source of a batch's numbers; what happens between the runs is drawn from it too.
    pub fn random(&self, batch: u64) -> Random {
        Random::new(Random::new(self.seed.wrapping_mul(1_000_003).wrapping_add(batch)).draw())
    }

    pub fn batch(&self, random: &mut Random) -> Vec<Trial> {
        (self.make)(random)
    }

    /// The same family with a share of its batches, for runs that cannot wait.
    pub fn thinned(mut self, divisor: u64) -> RunFamily {
        self.batches = self.batches.div_ceil(divisor);
        self
    }
}

/// Every family of the comparison; together more than 400,000 runs.
pub fn all_runs() -> Vec<RunFamily> {
    let family = |name, seed, batches, make| RunFamily { name, seed, batches, make };
    vec![
        family("routines that pass, from any point", 101, 16_000, routines),
        family("small listings with hostile claims", 102, 90_000, hostile),
        family("loops over long tables", 103, 500, long_loops),
        family("every instruction on extreme values", 104, 24_000, instructions),
        family("a state that misses a claim", 105, 16_000, missed),
        family("a point that does not exist", 106, 4_000, no_point),
        family("a table of more than 65,536 bytes", 107, 1_500, long_tables),
        family("listings turned back", 108, 8_000, turned_back),
        family("512 and 513 points", 109, 1_500, many_points),
        family("quotients of values at and beside a half", 110, 16_000, quotients::of_values),
        family("quotients of ranges, from states that meet them", 111, 12_000, quotients::of_ranges),
        family("remainders of values at 0, 1 and the greatest", 112, 12_000, remainders::of_values),
        family("remainders of ranges, from states that meet them", 113, 16_000, remainders::of_ranges),
        family("routines that divide with remainder", 114, 2_000, dealing_routines),
        family("one register for quotient and remainder", 115, 3_000, one_register_twice),
        family("loops that count down, from any point", 116, 2_000, turns::from_any_point),
        family("loops that count down, with their bound and a round less", 117, 4_000, turns::with_bound),
        family("listings under a TURN line, turned back", 118, 1_500, turns::turned_back),
        family("routines with dead stretches, from any point", 119, 3_000, dead_stretches::from_any_point),
        family("a state at an empty point", 120, 6_000, dead_stretches::at_empty_points),
        family("points that are nearly empty, from any point", 121, 6_000, dead_stretches::nearly_empty),
        family("long records walked by a loop", 122, 1_500, long_records::walked),
        family("one access of a long record", 123, 5_000, long_records::accessed),
        family("stripes of any scale, met and missed by one", 124, 6_000, long_records::met_and_missed),
        family("routines over long records, from any point", 125, 1_000, long_records::routines),
        family("scales and bounds near their limits", 126, 6_000, long_records::small_listings),
        family("routines over long records, one field nudged", 127, 300, long_records::nudged),
    ]
}

/// A trial from a start, with a budget drawn for it.
pub(super) fn trial(random: &mut Random, listing: &[u8], start: Start, runs: usize) -> Trial {
    let Start { state, trays, results } = start;
    let mut call = Call { listing: listing.to_vec(), state, trays, results, budget: 0 };
    call.budget = budget(random, &call);
    Trial { call, runs }
}

/// Routines from several starts, each taken up again a few times.
fn routines(random: &mut Random) -> Vec<Trial> {
    let text = routine(random).text();
    from_several_points(random, &text)
}

fn dealing_routines(random: &mut Random) -> Vec<Trial> {
    let text = dealing(random).text();
    from_several_points(random, &text)
}

pub(super) fn from_several_points(random: &mut Random, text: &[u8]) -> Vec<Trial> {
    let points = read(text).expect("a routine passes");
    (0..3).filter_map(|_| from_any_point(random, text, &points, 4)).collect()
}

pub(super) fn from_any_point(random: &mut Random, text: &[u8], points: &Listing, most: usize) -> Option<Trial> {
    let start = meeting(random, points)?;
    let runs = 1 + random.below(most);
    Some(trial(random, text, start, runs))
}

/// A small listing whose claims ask one question at an edge.
fn probe(random: &mut Random) -> Vec<u8> {
    let makers =
        [probes::one_edge, probes::one_edge, probes::chain, probes::access, probes::jumble, empty_points::one_point];
    let make = random.pick(&makers);
    make(random).swap_remove(0)
}

/// One of these that passes, from a state that meets its claims; or turned back, from any state.
fn hostile(random: &mut Random) -> Vec<Trial> {
    let text = probe(random);
    if check(&text).number != 0 {
        let start = any(random, 4);
        return vec![trial(random, &text, start, 1)];
    }
    let points = read(&text).expect("it passes");
    from_any_point(random, &text, &points, 3).into_iter().collect()
}

/// Loads, sums and stores over whole tables, with up to a few thousand steps in one run.
fn long_loops(random: &mut Random) -> Vec<Trial> {
    let (width, table) = (random.pick(&[1, 2, 4]), random.below(2));
    let size = TRAYS_SIZE + table;
    let whole = format!("STRP {size} {width} 1 _ _ 0; STRP 17 {width} 1 _ _ 0;");
    let here = format!("STRP {size} {width} 0 _ _ {width}; STRP 17 {width} 0 _ _ {width};");
    let text = listing(&format!(
        "{whole} SETC 0 _ _ _ _ 0; {whole} BLTU _ 0 _ 3 0 1; STOP; {whole} {here} LOAD 2 {width} {table} {width} 0 0;
         {whole} {here} ADDW 3 3 _ _ 0 2; {whole} {here} STOR 3 {width} _ {width} 0 0; {whole} ADDW 0 0 _ _ 1 1;
         {whole} JUMP _ _ _ 1"
    ));
    let bytes_each = random.pick(&[65_536, 65_536, 65_535, 4_000]);
    let records = bytes_each / width;
    let mut state = State { point: 0, registers: std::array::from_fn(|_| random.draw() as u32) };
    state.registers[1] = random.pick(&[records, records, records / 2, 1, 0]) as u32;
    let (trays, results) = (bytes(random, bytes_each), bytes(random, bytes_each));
    let budget = if random.percent(5) { u32::MAX } else { random.below(6_000) as u32 };
    let call = Call { listing: text, state, trays, results, budget };
    vec![Trial { call, runs: 2 }]
}

/// One instruction with the claims that make it safe, and STOP, from values at the ends of what they may be.
fn instructions(random: &mut Random) -> Vec<Trial> {
    let pool = pieces::pool(random);
    let mut draft = Draft::default();
    let target = random.below(2);
    let instruction = match random.below(3) {
        0 => pieces::load(random, &pool),
        1 => pieces::store(random, &pool),
        _ => pieces::instruction(random, &pool, target),
    };
    make_safe(draft.push(instruction));
    draft.push(Instruction::Stop);
    let text = draft.text();
    let points = read(&text).expect("it can be read");
    let Some(start) = meeting_at(random, &points, 0) else { return vec![] };
    let runs = 1 + random.below(2);
    vec![trial(random, &text, start, runs)]
}

fn make_safe(point: &mut DraftPoint) {
    let fits = |size, scale, i, end| Claim::Stripe(Stripe { x: size, a: scale, y: i, z: None, b: end });
    match point.instruction {
        Instruction::Compute { kind: Arithmetic::Divide, o: Operand::Variable(v), .. } => {
            point.claim(Claim::Least { v, value: 1 });
        }
        Instruction::Compute { kind: Arithmetic::Divide, d, i, o: Operand::Number(0) } => {
            point.instruction = Instruction::Compute { kind: Arithmetic::Divide, d, i, o: Operand::Number(1) };
        }
        Instruction::Load { width, table, scale, i, offset, .. } => {
            point.claim(fits(TRAYS_SIZE + table as usize, scale, i, offset + width));
        }
        Instruction::Store { width, scale, i, offset, .. } => {
            point.claim(fits(RESULTS_SIZE, scale, i, offset + width));
        }
        _ => {}
    }
}

/// A listing that passes: a routine, or a small one with hostile claims.
fn passing(random: &mut Random) -> (Vec<u8>, Listing) {
    loop {
        let text = if random.percent(30) { routine(random).text() } else { probe(random) };
        if check(&text).number == 0 {
            let points = read(&text).expect("it passes");
            return (text, points);
        }
    }
}

/// A state that misses one claim of its point.
fn missed(random: &mut Random) -> Vec<Trial> {
    let (text, points) = passing(random);
    let Some(start) = missing(random, &points) else { return vec![] };
    vec![trial(random, &text, start, 1)]
}

/// A point at or beyond the number of points.
fn no_point(random: &mut Random) -> Vec<Trial> {
    let (text, points) = passing(random);
    let count = points.points.len() as u64;
    let mut start = any(random, 1);
    start.state.point = random.pick(&[count, count, count + 1, 512, 1 << 16, 1 << 32, u64::MAX]).max(count);
    vec![trial(random, &text, start, 1)]
}

/// One table or both too long; the point may not exist, the claims may not be met, and the listing may not pass.
fn long_tables(random: &mut Random) -> Vec<Trial> {
    let text = if random.percent(85) { passing(random).0 } else { probe(random) };
    let mut start = any(random, 5);
    let both = random.percent(30);
    if both || random.percent(50) {
        start.trays = long_table(random);
    }
    if both || start.trays.len() <= 65_536 {
        start.results = long_table(random);
    }
    vec![trial(random, &text, start, 1)]
}

fn long_table(random: &mut Random) -> Vec<u8> {
    let length = random.pick(&[65_537, 65_537, 65_538, 70_000, 131_072]);
    bytes(random, length)
}

/// Damaged text, near misses and lines at their limits, from any state.
fn turned_back(random: &mut Random) -> Vec<Trial> {
    let makers = [damage::damaged, damage::damaged_twice, limits::fields, limits::claim_order, nudges::nudged];
    let make = random.pick(&makers);
    from_any_state(random, make)
}

/// Both results of a DIVM in one register, alone or beside other faults.
fn one_register_twice(random: &mut Random) -> Vec<Trial> {
    let makers = [damage::one_register_twice, damage::one_register_twice, limits::fields_of_div_mod];
    let make = random.pick(&makers);
    from_any_state(random, make)
}

pub(super) fn from_any_state(random: &mut Random, make: fn(&mut Random) -> Vec<Vec<u8>>) -> Vec<Trial> {
    let mut trials = Vec::new();
    for text in make(random) {
        let start = any(random, 8);
        trials.push(trial(random, &text, start, 1));
    }
    trials
}

fn many_points(random: &mut Random) -> Vec<Trial> {
    let mut trials = Vec::new();
    for text in limits::many_points(random) {
        let start = any(random, 512);
        trials.push(trial(random, &text, start, 2));
    }
    trials
}
