//! Runs over long records: walked by a loop through whole tables, accessed one by one at any index, and states that meet
//! or just miss stripes of any scale.

use super::call::Call;
use super::families::{from_any_point, from_any_state, from_several_points, trial, Trial};
use super::starts::{any, bytes, Start};
use crate::draft::Draft;
use crate::families::long_records::{self, scale};
use crate::families::{far_bounds, pieces};
use crate::random::Random;
use lines::listing;
use reference::{
    check, read, Claim, Instruction, State, Stripe, Whole, MAX, REGISTERS, RESULTS_SIZE, SIZE_LIMIT, TRAYS_SIZE,
};

/// A length of 256 to 4,095 bytes.
fn length(random: &mut Random) -> Whole {
    let any = random.between(256, 4_095);
    random.pick(&[256, 257, 300, 1_000, 4_094, 4_095, 4_095, any])
}

/// A field of each record is loaded from either table, added up and stored in a result of another length.
pub fn walked(random: &mut Random) -> Vec<Trial> {
    let (width, table) = (pieces::width(random), random.below(2));
    let (from, to) = (length(random), length(random));
    let [read_at, write_at] = [from, to].map(|length| random.pick(&[0, length - width, length - width, length / 2]));
    let size = TRAYS_SIZE + table;
    let whole = format!("STRP {size} {from} 1 _ _ 0; STRP 17 {to} 1 _ _ 0;");
    let here = format!("STRP {size} {from} 0 _ _ {from}; STRP 17 {to} 0 _ _ {to};");
    let text = listing(&format!(
        "{whole} SETC 0 _ _ _ _ 0; {whole} BLTU _ 0 _ 3 0 1; STOP;
         {whole} {here} LOAD 2 {width} {table} {from} 0 {read_at}; {whole} {here} ADDW 3 3 _ _ 0 2;
         {whole} {here} STOR 3 {width} _ {to} 0 {write_at}; {whole} ADDW 0 0 _ _ 1 1; {whole} JUMP _ _ _ 1"
    ));
    let most = SIZE_LIMIT / from.max(to);
    let records = random.pick(&[most, most, most.min(5), 2, 1, 0]);
    // as many bytes as the records need, as many as may be, or a byte less
    let needed = if table == 0 { [from, to] } else { [0, from.max(to)] };
    let sizes = needed.map(|length| {
        let bytes = records * length;
        random.pick(&[bytes, bytes, bytes, bytes, SIZE_LIMIT, (bytes - 1).max(0)]) as usize
    });
    let mut state = State { point: 0, registers: std::array::from_fn(|_| random.draw() as u32) };
    state.registers[1] = records as u32;
    let (trays, results) = (bytes(random, sizes[0]), bytes(random, sizes[1]));
    let budget = if random.percent(50) { u32::MAX } else { random.below(120) as u32 };
    vec![Trial { call: Call { listing: text, state, trays, results, budget }, runs: 2 }]
}

/// One access of a record at any index, right before the end of its table or not, and STOP.
pub fn accessed(random: &mut Random) -> Vec<Trial> {
    let (a, width, table) = (scale(random), pieces::width(random), random.below(2));
    let (i, size) = (random.below(8), TRAYS_SIZE + table);
    let offset = random.pick(&[0, 1, a - width, 60_000]).clamp(0, 65_535);
    let most = (SIZE_LIMIT - offset - width) / a;
    let inside = random.between(0, most);
    let index = random.pick(&[0, 1, 15, 16, inside, most, most]).min(most);
    let end = a * index + offset + width;
    let instruction = match (table, random.percent(50)) {
        (1, true) => Instruction::Store { stored: 8 + random.below(10), width, scale: a, i, offset },
        _ => Instruction::Load { d: random.below(REGISTERS), width, table: table as Whole, scale: a, i, offset },
    };
    let mut draft = Draft::default();
    draft.push(instruction).claim(Claim::Stripe(Stripe { x: size, a, y: i, z: None, b: offset + width }));
    draft.push(Instruction::Stop);
    let mut sizes = [0, 1].map(|_| random.pick(&[0, 4, 80]));
    sizes[table] = (end + random.pick(&[0, 0, 0, 1, 300, -1])).clamp(0, SIZE_LIMIT) as usize;
    let mut registers: [u32; REGISTERS] = std::array::from_fn(|_| random.draw() as u32);
    registers[i] = index as u32;
    let [trays, results] = sizes.map(|size| bytes(random, size));
    let start = Start { state: State { point: 0, registers }, trays, results };
    let text = draft.text();
    vec![trial(random, &text, start, 2)]
}

/// A stripe of any scale over large values that its state just meets, or misses by one.
pub fn met_and_missed(random: &mut Random) -> Vec<Trial> {
    let mut values: [Whole; REGISTERS + 2] = std::array::from_fn(|_| {
        let any = pieces::value(random);
        random.pick(&[MAX, MAX - 1, 1 << 31, any])
    });
    (values[TRAYS_SIZE], values[RESULTS_SIZE]) = (random.between(0, 9), random.between(0, 9));
    let [x, y, z] = std::array::from_fn(|_| random.below(values.len()));
    let (a, z) = (scale(random), random.percent(50).then_some(z));
    let met = values[x] - a * (values[y] + z.map_or(0, |z| values[z]));
    let b = met + random.pick(&[0, 0, -1, 1, 1]);
    let mut draft = Draft::default();
    let step = random.pick(&[Instruction::Stop, Instruction::Jump { target: 1 }]);
    draft.push(step).claim(Claim::Stripe(Stripe { x, a, y, z, b }));
    draft.push(Instruction::Stop);
    let registers = std::array::from_fn(|v| values[v] as u32);
    let [trays, results] = [TRAYS_SIZE, RESULTS_SIZE].map(|size| bytes(random, values[size] as usize));
    let text = draft.text();
    vec![trial(random, &text, Start { state: State { point: 0, registers }, trays, results }, 1)]
}

/// A routine over long records, from several starts.
pub fn routines(random: &mut Random) -> Vec<Trial> {
    let text = long_records::routines(random).swap_remove(0);
    from_several_points(random, &text)
}

/// A small listing with scales and bounds near their limits: one that passes, from a state that meets its claims, if one
/// is found; one that is turned back, from any state.
pub fn small_listings(random: &mut Random) -> Vec<Trial> {
    let makers = [
        long_records::stripes,
        long_records::products,
        long_records::accesses,
        long_records::addresses,
        far_bounds::written,
        far_bounds::shifted,
        far_bounds::far_goals,
    ];
    let text = random.pick(&makers)(random).swap_remove(0);
    if check(&text).number != 0 {
        let start = any(random, 2);
        return vec![trial(random, &text, start, 1)];
    }
    let points = read(&text).expect("it passes");
    from_any_point(random, &text, &points, 3).into_iter().collect()
}

/// Routines over long records with one number nudged, from any state.
pub fn nudged(random: &mut Random) -> Vec<Trial> {
    from_any_state(random, long_records::nudged)
}
