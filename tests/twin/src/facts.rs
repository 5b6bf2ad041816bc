//! Ranges and stripes at a point and along its edges. Ends are signed, so that an end below 0 stays below 0.

use crate::line::{Claim, Operand, BLANK, BOUND_LIMIT, GREATEST_SCALE, MAX, RESULTS_SIZE, SIZE_LIMIT, TRAYS_SIZE};
use crate::quotient::nearest;

pub const VARIABLES: usize = 18;
const MOST_STRIPES: usize = 10;
/// Places in front of a point's own stripes, for what an instruction adds.
const ADDED: usize = 2;

#[derive(Clone, Copy)]
pub struct Stripe {
    pub x: u8,
    pub a: u16,
    pub y: u8,
    pub z: u8,
    pub b: i64,
}

impl Stripe {
    #[inline]
    fn names(&self, v: u8) -> bool {
        self.x == v || self.y == v || self.z == v
    }
}

/// hi has one place more, for a blank z, whose greatest value is 0.
#[derive(Clone, Copy)]
pub struct Facts {
    pub lo: [i64; VARIABLES],
    pub hi: [i64; VARIABLES + 1],
    stripes: [Stripe; MOST_STRIPES],
    first: usize,
    count: usize,
}

impl Facts {
    /// What the claims of a point say.
    pub fn at(claims: &[Claim]) -> Facts {
        let none = Stripe { x: 0, a: 1, y: 0, z: BLANK, b: 0 };
        let mut facts = Facts {
            lo: [0; VARIABLES],
            hi: [MAX as i64; VARIABLES + 1],
            stripes: [none; MOST_STRIPES],
            first: ADDED,
            count: 0,
        };
        facts.hi[TRAYS_SIZE as usize] = SIZE_LIMIT as i64;
        facts.hi[RESULTS_SIZE as usize] = SIZE_LIMIT as i64;
        facts.hi[BLANK as usize] = 0;
        for claim in claims {
            match *claim {
                Claim::Least { v, value } => facts.lo[v as usize] = value,
                Claim::Most { v, value } => facts.hi[v as usize] = value,
                Claim::Stripe { x, a, y, z, b } => facts.push(Stripe { x, a, y, z, b }),
            }
        }
        facts
    }

    #[inline]
    pub fn stripes(&self) -> &[Stripe] {
        &self.stripes[self.first..self.first + self.count]
    }

    #[inline]
    pub fn impossible(&self) -> bool {
        self.lo.iter().zip(&self.hi).fold(false, |empty, (lo, hi)| empty | (lo > hi))
    }

    #[inline]
    fn push(&mut self, stripe: Stripe) {
        self.stripes[self.first + self.count] = stripe;
        self.count += 1;
    }

    /// What an instruction adds stands in front, as in the proved checker, so that both search in the same order.
    #[inline]
    fn add_stripe(&mut self, stripe: Stripe) {
        self.first -= 1;
        self.stripes[self.first] = stripe;
        self.count += 1;
    }

    #[inline]
    fn add_difference(&mut self, x: u8, y: u8, b: i64) {
        self.add_stripe(Stripe { x, a: 1, y, z: BLANK, b });
    }

    /// Two differences, the first in front.
    #[inline]
    fn add_both(&mut self, x: u8, y: u8, b: i64) {
        self.add_difference(y, x, -b);
        self.add_difference(x, y, b);
    }

    /// Keeps the stripes that the test keeps, in their order; the test may change them.
    #[inline]
    fn retain(&mut self, mut keeps: impl FnMut(&mut Stripe) -> bool) {
        let mut kept = self.first;
        for at in self.first..self.first + self.count {
            let mut stripe = self.stripes[at];
            if keeps(&mut stripe) {
                self.stripes[kept] = stripe;
                kept += 1;
            }
        }
        self.count = kept - self.first;
    }

    #[inline]
    pub fn ends(&self, o: Operand) -> (i64, i64) {
        match o {
            Operand::Variable(v) => (self.lo[v as usize], self.hi[v as usize]),
            Operand::Number(number) => (i64::from(number), i64::from(number)),
        }
    }

    /// d takes the range and loses its stripes.
    #[inline]
    pub fn write(&mut self, d: u8, lo: i64, hi: i64) {
        self.set(d, lo, hi);
        self.retain(|stripe| !stripe.names(d));
    }

    #[inline]
    fn set(&mut self, v: u8, lo: i64, hi: i64) {
        self.lo[v as usize] = lo;
        self.hi[v as usize] = hi;
    }

    fn write_any(&mut self, d: u8) {
        self.write(d, 0, MAX as i64);
    }

    pub fn copy(&mut self, d: u8, i: u8) {
        if d == i {
            return;
        }
        self.write(d, self.lo[i as usize], self.hi[i as usize]);
        self.add_both(d, i, 0);
    }

    pub fn add(&mut self, d: u8, i: u8, o: Operand) {
        let ((lo, hi), (lo_o, hi_o)) = (self.ends(Operand::Variable(i)), self.ends(o));
        if hi + hi_o > MAX as i64 {
            return self.write_any(d);
        }
        let (lo, hi) = (lo + lo_o, hi + hi_o);
        match o {
            Operand::Number(number) => self.shift(d, i, lo, hi, i64::from(number)),
            Operand::Variable(v) => {
                self.write(d, lo, hi);
                if d != i && d != v {
                    self.add_stripe(Stripe { x: d, a: 1, y: i, z: v, b: 0 });
                }
            }
        }
    }

    pub fn subtract(&mut self, d: u8, i: u8, o: Operand) {
        let ((lo, hi), (lo_o, hi_o)) = (self.ends(Operand::Variable(i)), self.ends(o));
        if lo < hi_o {
            return self.write_any(d);
        }
        let (lo, hi) = (lo - hi_o, hi - lo_o);
        match o {
            Operand::Number(number) => self.shift(d, i, lo, hi, -i64::from(number)),
            Operand::Variable(v) => {
                self.write(d, lo, hi);
                if d != i && d != v {
                    self.add_stripe(Stripe { x: i, a: 1, y: d, z: v, b: 0 });
                }
            }
        }
    }

    /// d becomes i + by.
    fn shift(&mut self, d: u8, i: u8, lo: i64, hi: i64, by: i64) {
        if d != i {
            self.write(d, lo, hi);
            self.add_both(d, i, by);
            return;
        }
        self.set(d, lo, hi);
        self.retain(|stripe| {
            let times = i64::from(stripe.y == d) + i64::from(stripe.z == d);
            stripe.b += by * (i64::from(stripe.x == d) - i64::from(stripe.a) * times);
            stripe.b.unsigned_abs() <= BOUND_LIMIT
        });
    }

    pub fn multiply(&mut self, d: u8, i: u8, o: Operand) {
        let ((lo, hi), (lo_o, hi_o)) = (self.ends(Operand::Variable(i)), self.ends(o));
        let most = hi as u64 * hi_o as u64;
        if most > MAX {
            return self.write_any(d);
        }
        self.write(d, lo * lo_o, most as i64);
        if let Operand::Number(scale) = o {
            if (1..=GREATEST_SCALE).contains(&u64::from(scale)) && d != i {
                self.add_stripe(Stripe { x: d, a: scale as u16, y: i, z: BLANK, b: 0 });
            }
        }
    }

    /// The divisor is at least 1.
    pub fn divide(&mut self, d: u8, i: u8, o: Operand) {
        let ((lo, hi), (lo_o, hi_o)) = (self.ends(Operand::Variable(i)), self.ends(o));
        let (least, most) = (nearest(lo as u64, hi_o as u64), nearest(hi as u64, lo_o as u64));
        self.write(d, least as i64, most as i64);
    }

    pub fn less(&mut self, i: u8, o: Operand) {
        let ((lo, _), (_, hi_o)) = (self.ends(Operand::Variable(i)), self.ends(o));
        let hi = &mut self.hi[i as usize];
        *hi = (*hi).min(hi_o - 1);
        if let Operand::Variable(v) = o {
            let lo_o = &mut self.lo[v as usize];
            *lo_o = (*lo_o).max(lo + 1);
            self.add_difference(v, i, 1);
        }
    }

    pub fn not_less(&mut self, i: u8, o: Operand) {
        let ((_, hi), (lo_o, _)) = (self.ends(Operand::Variable(i)), self.ends(o));
        let lo = &mut self.lo[i as usize];
        *lo = (*lo).max(lo_o);
        if let Operand::Variable(v) = o {
            let hi_o = &mut self.hi[v as usize];
            *hi_o = (*hi_o).min(hi);
            self.add_difference(i, v, 0);
        }
    }

    pub fn equal(&mut self, i: u8, o: Operand) {
        let ((lo, hi), (lo_o, hi_o)) = (self.ends(Operand::Variable(i)), self.ends(o));
        let (lo, hi) = (lo.max(lo_o), hi.min(hi_o));
        self.set(i, lo, hi);
        if let Operand::Variable(v) = o {
            self.set(v, lo, hi);
            self.add_both(v, i, 0);
        }
    }

    pub fn not_equal(&mut self, i: u8, o: Operand) {
        let ((lo, hi), (lo_o, hi_o)) = (self.ends(Operand::Variable(i)), self.ends(o));
        if lo_o != hi_o {
            return;
        }
        self.set(i, lo + i64::from(lo == lo_o), hi - i64::from(hi == lo_o));
    }

    /// The divisor is at least 1. All ends are taken first, as q or r may be i or o.
    pub fn div_mod(&mut self, q: u8, i: u8, r: u8, o: Operand) {
        let ((lo, hi), (lo_o, hi_o)) = (self.ends(Operand::Variable(i)), self.ends(o));
        self.set(q, lo / hi_o, hi / lo_o);
        self.set(r, 0, hi.min(hi_o - 1));
        self.retain(|stripe| !stripe.names(q) && !stripe.names(r));
    }
}
