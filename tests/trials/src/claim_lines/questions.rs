//! The listings whose claim lines are asked for, and the points of each.

use crate::draft::{Draft, DraftPoint};
use crate::families::{all, pieces, Family};
use crate::random::Random;
use lines::LINE;
use reference::{read, Instruction};

/// One listing in so many of the checker's families is asked; long listings are rare as they are.
const SHARE: u64 = 4;

/// A share of every family of listings, and one in which points share their claim lines.
pub fn listings() -> Vec<Family> {
    let shares = |family: Family| {
        let share = if family.name == "512 and 513 points" { 1 } else { SHARE };
        family.thinned(share)
    };
    let shared = Family::new("points with equal claim lines", 16, 8_000, shared_claims);
    all().into_iter().map(shares).chain([shared]).collect()
}

/// A few points with one of two sets of claims, so that the same bytes stand before several instructions.
fn shared_claims(random: &mut Random) -> Vec<Vec<u8>> {
    let pool = pieces::pool(random);
    let sets = [0, 1].map(|_| {
        let mut point = DraftPoint::bare(Instruction::Stop);
        pieces::claim_ranges(random, &pool, &mut point);
        let stripes = random.pick(&[0, 1, 2, 8]);
        pieces::claim_stripes(random, &pool, stripes, &mut point);
        point.claims
    });
    let count = 2 + random.below(9);
    let mut draft = Draft::default();
    for at in 0..count {
        let target = random.below(count);
        let instruction = pieces::instruction(random, &pool, target);
        let point = draft.push(if at + 1 == count { Instruction::Stop } else { instruction });
        if random.percent(80) {
            point.claims = sets[random.below(2)].clone();
        }
    }
    vec![draft.text()]
}

/// The points asked of a listing: some that exist, the first that does not, and the greatest number. Where the listing
/// is turned back, so is every point, and two are asked.
pub fn points(random: &mut Random, listing: &[u8]) -> Vec<u64> {
    let beyond = |count: u64, random: &mut Random| random.pick(&[count, count, count + 1, 512, 1 << 32, u64::MAX]);
    match read(listing) {
        Err(_) => {
            let lines = listing.len() / LINE + 1;
            vec![random.below(lines) as u64, beyond(lines as u64, random)]
        }
        Ok(read) => {
            let count = read.points.len();
            let claimed: Vec<usize> = (0..count).filter(|&at| !read.points[at].claims.is_empty()).collect();
            let mut points = vec![0, random.below(count) as u64, beyond(count as u64, random)];
            points.extend((!claimed.is_empty()).then(|| random.pick(&claimed) as u64));
            points
        }
    }
}
