//! The numbers of the refusals. They rise in the order of the tests but for 19, which is tested right after 5.

/// No lines, too many bytes, or no whole number of lines.
pub const BAD_LENGTH: u64 = 1;
/// A byte outside its column's limits.
pub const BAD_BYTE: u64 = 2;
/// No such word.
pub const UNKNOWN_WORD: u64 = 3;
/// A field misshapen, missing, or filled where it must be blank.
pub const BAD_SHAPE: u64 = 4;
/// A number outside its limits.
pub const OUT_OF_LIMITS: u64 = 5;
/// A claim out of order, a second one, or a ninth stripe.
pub const BAD_ORDER: u64 = 6;
/// A claim on the last line.
pub const ENDS_IN_CLAIM: u64 = 7;
/// A 513th point.
pub const TOO_MANY_POINTS: u64 = 8;
/// A target beyond the last point.
pub const NO_SUCH_TARGET: u64 = 9;
/// A last instruction that goes on.
pub const RUNS_OFF_THE_END: u64 = 10;
/// An empty range at point 0.
pub const EMPTY_START: u64 = 11;
/// A divisor not shown to be above 0.
pub const DIVISOR_MAY_BE_ZERO: u64 = 12;
/// An access not shown to stay in its table.
pub const ACCESS_MAY_LEAVE: u64 = 13;
/// A successor's claim not shown.
pub const CLAIM_DOES_NOT_FOLLOW: u64 = 14;
/// A table above its greatest size.
pub const TABLE_TOO_LONG: u64 = 15;
/// A point beyond the last.
pub const NO_SUCH_POINT: u64 = 16;
/// A state that does not meet its point's claims.
pub const CLAIMS_NOT_MET: u64 = 17;
/// A line that the lent listing does not hold whole, or that no listing has.
pub const NO_SUCH_LINE: u64 = 18;
/// One register for both the quotient and the remainder.
pub const ONE_REGISTER_TWICE: u64 = 19;
/// A way back that no count bounds.
pub const WAY_BACK_NOT_COVERED: u64 = 20;
