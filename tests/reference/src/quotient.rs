//! What divisions give, as a step writes it and as the ends of ranges are made. Nothing is below 0, and right is not 0.

use crate::line::Whole;

/// DIVF's quotient: the whole number nearest to left / right, a half going up.
pub fn nearest(left: Whole, right: Whole) -> Whole {
    (2 * left + right) / (2 * right)
}

/// DIVM's quotient: how many times right goes into left.
pub fn rounded_down(left: Whole, right: Whole) -> Whole {
    left / right
}

/// DIVM's remainder: what is left of left.
pub fn left_over(left: Whole, right: Whole) -> Whole {
    left - rounded_down(left, right) * right
}
