//! What passed within the earlier limits of scales and bounds: the proved checker passes it with as many points.

use crate::of_archive;
use trials::earlier_limits::pass_still;
use trials::{all, Count};

/// The tests of `trials` look at every listing; here a share is enough, since the proved checker is compared on all.
const SHARE: u64 = 8;

pub fn try_earlier_limits(count: &mut Count) {
    let passed: Result<u64, _> = all().into_iter().map(|family| pass_still(&family.thinned(SHARE), &of_archive)).sum();
    let passed = passed.map(|listings| println!("{listings} listings that passed within the earlier limits pass"));
    count.test(
        passed.map_err(|difference| format!("first is within the earlier limits, second the archive: {difference}")),
    );
}
