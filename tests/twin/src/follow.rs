//! When a stripe goal follows: by ranges, by a stripe that stands, or through at most three links.

use crate::facts::{Facts, Stripe, VARIABLES};
use crate::line::BLANK;

const LINKS: u32 = 3;

/// u − v ≥ m.
#[derive(Clone, Copy)]
struct Link {
    u: u8,
    v: u8,
    m: i64,
}

/// The best link for each pair of variables.
pub struct Links {
    links: [Link; 10],
    count: usize,
}

impl Links {
    fn among(stripes: &[Stripe]) -> Links {
        let mut links = Links { links: [Link { u: 0, v: 0, m: 0 }; 10], count: 0 };
        for stripe in stripes.iter().filter(|stripe| stripe.a == 1 && stripe.z == BLANK) {
            links.keep(Link { u: stripe.x, v: stripe.y, m: stripe.b });
        }
        links
    }

    fn keep(&mut self, link: Link) {
        let known = self.links[..self.count].iter_mut().find(|known| known.u == link.u && known.v == link.v);
        match known {
            Some(known) => known.m = known.m.max(link.m),
            None => {
                self.links[self.count] = link;
                self.count += 1;
            }
        }
    }
}

/// A goal x − a × (y + z) ≥ b under search: x and a stay the same through all links.
struct Search<'a> {
    hi: &'a [i64; VARIABLES + 1],
    stripes: &'a [Stripe],
    links: &'a [Link],
    x: u8,
    a: u16,
    lo: i64,
}

/// Whether the goal follows from the facts. Their links are gathered for the first goal that needs them.
pub fn follows(facts: &Facts, links: &mut Option<Links>, goal: &Stripe) -> bool {
    let Stripe { x, a, y, z, b } = *goal;
    let stripes = facts.stripes();
    let search = Search { hi: &facts.hi, stripes, links: &[], x, a, lo: facts.lo[x as usize] };
    if search.at_once(y, z, b) {
        return true;
    }
    let Links { links, count } = links.get_or_insert_with(|| Links::among(stripes));
    Search { links: &links[..*count], ..search }.through(y, z, b, LINKS)
}

impl Search<'_> {
    #[inline]
    fn at_once(&self, y: u8, z: u8, b: i64) -> bool {
        let most = self.hi[y as usize] + self.hi[z as usize];
        self.lo - i64::from(self.a) * most >= b || self.stands(y, z, b)
    }

    #[inline]
    fn stands(&self, y: u8, z: u8, b: i64) -> bool {
        // x is compared first, as it tells most stripes apart
        self.stripes.iter().filter(|stripe| stripe.x == self.x).any(|stripe| {
            let pair = (stripe.y == y && stripe.z == z) || (stripe.y == z && stripe.z == y);
            stripe.a == self.a && pair && stripe.b >= b
        })
    }

    /// By one link at least, and at most `left`.
    fn through(&self, y: u8, z: u8, b: i64, left: u32) -> bool {
        self.links.iter().any(|link| {
            let b = b - i64::from(self.a) * link.m;
            // with y = z, replacing the other one gives the same goal
            if link.v == y {
                self.reached(link.u, z, b, left - 1)
            } else {
                link.v == z && self.reached(y, link.u, b, left - 1)
            }
        })
    }

    #[inline]
    fn reached(&self, y: u8, z: u8, b: i64, left: u32) -> bool {
        self.at_once(y, z, b) || (left > 0 && self.through(y, z, b, left))
    }
}
