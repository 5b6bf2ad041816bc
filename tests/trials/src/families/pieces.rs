//! Random numbers, claims and instructions with a taste for edges.

use crate::draft::DraftPoint;
use crate::random::Random;
use reference::{
    Arithmetic, Claim, Comparison, Instruction, Limits, Operand, Stripe, Whole, MAX, REGISTERS, SIZE_LIMIT, VARIABLES,
};

const CORNERS: [Whole; 22] = [
    0,
    0,
    1,
    1,
    2,
    3,
    4,
    5,
    7,
    8,
    100,
    255,
    256,
    4_095,
    4_096,
    65_535,
    65_536,
    65_537,
    1 << 31,
    (1 << 31) + 1,
    MAX - 1,
    MAX,
];

/// A value of a register.
pub fn value(random: &mut Random) -> Whole {
    match random.below(10) {
        0..=4 => random.pick(&CORNERS),
        5..=7 => random.between(0, 20),
        8 => random.between(0, SIZE_LIMIT),
        _ => random.between(0, MAX),
    }
}

/// A value that a LEAS or MOST of the variable may name.
pub fn value_of(random: &mut Random, v: usize) -> Whole {
    value(random).min(greatest(v))
}

pub fn greatest(v: usize) -> Whole {
    if v < REGISTERS {
        MAX
    } else {
        SIZE_LIMIT
    }
}

/// The limits of today, or the earlier ones.
pub fn limits(random: &mut Random) -> Limits {
    random.pick(&[Limits::TODAY, Limits::EARLIER])
}

pub fn bound(random: &mut Random) -> Whole {
    let (sign, end) = (random.pick(&[1, -1]), limits(random).bound);
    match random.below(10) {
        0..=4 => sign * random.between(0, 9),
        5 => sign * value(random),
        6 => sign * (end - random.between(0, 3)),
        7 => sign * random.between(0, end),
        _ => -random.between(0, 2 * MAX),
    }
}

pub fn scale(random: &mut Random) -> Whole {
    random.pick(&[1, 1, 1, 1, 1, 1, 1, 1, 2, 2, 3, 4, 8, 8, 100, 254, 255, 255, 256, 4_094, 4_095])
}

pub fn width(random: &mut Random) -> Whole {
    random.pick(&[1, 2, 4])
}

/// A few variables, so that claims and instructions meet; there is at least one register among them.
pub fn pool(random: &mut Random) -> Vec<usize> {
    let mut pool = vec![random.below(REGISTERS)];
    for _ in 0..random.below(4) {
        pool.push(random.below(VARIABLES));
    }
    if random.percent(50) {
        pool.push(random.pick(&[16, 17]));
    }
    pool
}

/// The same with at least two registers.
pub fn pool_of_two(random: &mut Random) -> Vec<usize> {
    let mut pool = pool(random);
    pool.push((pool[0] + 1 + random.below(REGISTERS - 1)) % REGISTERS);
    pool
}

pub fn register(random: &mut Random, pool: &[usize]) -> usize {
    let v = random.pick(pool);
    if v < REGISTERS {
        v
    } else {
        pool[0]
    }
}

pub fn operand(random: &mut Random, pool: &[usize]) -> Operand {
    if random.percent(55) {
        Operand::Variable(random.pick(pool))
    } else {
        Operand::Number(value(random))
    }
}

pub fn stripe(random: &mut Random, pool: &[usize]) -> Stripe {
    let z = random.percent(30).then(|| random.pick(pool));
    Stripe { x: random.pick(pool), a: scale(random), y: random.pick(pool), z, b: bound(random) }
}

pub fn claim(random: &mut Random, pool: &[usize]) -> Claim {
    let v = random.pick(pool);
    match random.below(4) {
        0 => Claim::Least { v, value: value_of(random, v) },
        1 => Claim::Most { v, value: value_of(random, v) },
        _ => Claim::Stripe(stripe(random, pool)),
    }
}

/// Ranges for some variables, mostly not empty, often narrow.
pub fn claim_ranges(random: &mut Random, pool: &[usize], point: &mut DraftPoint) {
    for &v in pool {
        let (one, other) = (value_of(random, v), value_of(random, v));
        let (lo, hi) = if random.percent(94) { (one.min(other), one.max(other)) } else { (one, other) };
        let hi = if random.percent(25) { (lo + random.between(0, 2)).min(greatest(v)) } else { hi };
        if random.percent(60) {
            point.claim(Claim::Least { v, value: lo });
        }
        if random.percent(60) {
            point.claim(Claim::Most { v, value: hi });
        }
    }
}

pub fn claim_stripes(random: &mut Random, pool: &[usize], count: usize, point: &mut DraftPoint) {
    for _ in 0..count {
        point.claim(Claim::Stripe(stripe(random, pool)));
    }
}

pub fn arithmetic(random: &mut Random, pool: &[usize]) -> Instruction {
    let kind = random.pick(&[
        Arithmetic::Add,
        Arithmetic::Add,
        Arithmetic::Subtract,
        Arithmetic::Subtract,
        Arithmetic::Multiply,
        Arithmetic::Divide,
    ]);
    let o = match operand(random, pool) {
        // a factor at or beside the ends of a scale, often enough
        Operand::Number(_) if kind == Arithmetic::Multiply && random.percent(70) => {
            Operand::Number(random.pick(&[0, 1, 2, 3, 255, 256, 257, 4_094, 4_095, 4_095, 4_096, 4_097]))
        }
        operand => operand,
    };
    Instruction::Compute { kind, d: register(random, pool), i: random.pick(pool), o }
}

/// A division with remainder over a pool with two registers or more; seldom both results are in one.
pub fn div_mod(random: &mut Random, pool: &[usize]) -> Instruction {
    let q = register(random, pool);
    let others: Vec<usize> = pool.iter().copied().filter(|&v| v < REGISTERS && v != q).collect();
    let r = if random.percent(2) { q } else { random.pick(&others) };
    Instruction::DivMod { q, i: random.pick(pool), r, o: operand(random, pool) }
}

pub fn load(random: &mut Random, pool: &[usize]) -> Instruction {
    Instruction::Load {
        d: register(random, pool),
        width: width(random),
        table: random.between(0, 1),
        scale: scale(random),
        i: random.pick(pool),
        offset: random.pick(&[0, 0, 1, 4, 65_535]),
    }
}

pub fn store(random: &mut Random, pool: &[usize]) -> Instruction {
    Instruction::Store {
        stored: random.pick(pool),
        width: width(random),
        scale: scale(random),
        i: random.pick(pool),
        offset: random.pick(&[0, 0, 1, 4, 65_535]),
    }
}

pub fn branch(random: &mut Random, pool: &[usize], target: usize) -> Instruction {
    let kind = random.pick(&[Comparison::Less, Comparison::Equal]);
    Instruction::Branch { kind, i: random.pick(pool), target, o: operand(random, pool) }
}

/// Any instruction but STOP.
pub fn instruction(random: &mut Random, pool: &[usize], target: usize) -> Instruction {
    match random.below(20) {
        0 => Instruction::Set { d: register(random, pool), number: value(random) },
        1..=3 => Instruction::Copy { d: register(random, pool), i: random.pick(pool) },
        4..=11 => arithmetic(random, pool),
        12 => load(random, pool),
        13 => store(random, pool),
        14 => Instruction::Jump { target },
        _ => branch(random, pool, target),
    }
}
