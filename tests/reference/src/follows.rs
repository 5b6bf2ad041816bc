//! When a claim follows from what is known.

use crate::known::Known;
use crate::line::{Claim, Stripe, Whole};

/// How many links a stripe goal may use.
pub const LINKS: u32 = 3;

/// Whether a claim follows, a stripe within all links.
pub fn claim_follows(known: &Known, claim: &Claim) -> bool {
    match *claim {
        Claim::Least { v, value } => known.ranges[v].lo >= value,
        Claim::Most { v, value } => known.ranges[v].hi <= value,
        Claim::Stripe(goal) => goal_follows(known, &goal, LINKS),
    }
}

/// Whether the goal follows with this many links left. Its bound has no limits.
pub fn goal_follows(known: &Known, goal: &Stripe, links: u32) -> bool {
    least_by_ranges(known, goal) >= goal.b
        || known.stripes.iter().any(|stripe| shows(stripe, goal))
        || (links >= 1 && through_links(known, goal).iter().any(|goal| goal_follows(known, goal, links - 1)))
}

/// The least x − a × (y + z) that the ranges allow.
fn least_by_ranges(known: &Known, goal: &Stripe) -> Whole {
    let z = goal.z.map_or(0, |z| known.ranges[z].hi);
    known.ranges[goal.x].lo - goal.a * (known.ranges[goal.y].hi + z)
}

/// The same variables and scale, y and z in either order, with at least the goal's bound.
fn shows(stripe: &Stripe, goal: &Stripe) -> bool {
    let as_written = stripe.y == goal.y && stripe.z == goal.z;
    let exchanged = stripe.z == Some(goal.y) && goal.z == Some(stripe.y);
    stripe.x == goal.x && stripe.a == goal.a && (as_written || exchanged) && stripe.b >= goal.b
}

/// The goals that each show this one by one link: u − v ≥ m lets u stand for v, y or z, and lowers b by a × m.
fn through_links(known: &Known, goal: &Stripe) -> Vec<Stripe> {
    let mut goals = Vec::new();
    for link in known.stripes.iter().filter(|stripe| stripe.a == 1 && stripe.z.is_none()) {
        let b = goal.b - goal.a * link.b;
        if link.y == goal.y {
            goals.push(Stripe { y: link.x, b, ..*goal });
        }
        if Some(link.y) == goal.z {
            goals.push(Stripe { z: Some(link.x), b, ..*goal });
        }
    }
    goals
}
