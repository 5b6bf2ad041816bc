//! The two limits that follow from how long a record may be: of scales, and of the bounds of stripes.

use crate::line::Whole;

/// Scales are 1 to `scale`, and the bounds of stripes −`bound` to `bound`.
#[derive(Clone, Copy, Debug, PartialEq, Eq)]
pub struct Limits {
    pub scale: Whole,
    pub bound: Whole,
}

impl Limits {
    pub const TODAY: Limits = Limits { scale: 4_095, bound: 70_368_744_177_664 };
    /// For records of at most 255 bytes. What passes within these passes within today's, with the same meaning.
    pub const EARLIER: Limits = Limits { scale: 255, bound: 4_398_046_511_104 };

    pub fn has_scale(&self, scale: Whole) -> bool {
        (1..=self.scale).contains(&scale)
    }

    pub fn has_bound(&self, bound: Whole) -> bool {
        (-self.bound..=self.bound).contains(&bound)
    }
}
