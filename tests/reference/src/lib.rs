//! A second checker, step bound, setter and runner for listings, written from the papers alone to be compared with the proved one.
//! It is meant to be obviously right: whole numbers are `i128`, every rule stands once, nothing is tuned.
//! What depends on the limits of scales and bounds can be asked within others than today's.

mod bound;
mod checker;
mod edges;
mod follows;
mod known;
mod limits;
mod line;
mod listing;
mod machine;
mod output;
mod quotient;
pub mod refusals;
mod runner;
mod set;

pub use bound::{step_bound, step_bound_within};
pub use checker::{check, check_within, Answer};
pub use edges::{edges, edges_within, Edge};
pub use follows::{claim_follows, goal_follows, LINKS};
pub use known::{Known, Range};
pub use limits::Limits;
pub use line::{
    read_fields, read_line, read_line_within, Arithmetic, Claim, Comparison, Instruction, Line, Numbers, Operand,
    Stripe, Whole, MAX, REGISTERS, RESULTS_SIZE, SIZE_LIMIT, TARGETS, TRAYS_SIZE, VARIABLES,
};
pub use listing::{
    claim_lines, claim_span, claim_span_within, read, read_within, ClaimLine, Listing, Point, Refusal, LINE_BYTES,
    LONGEST,
};
pub use machine::{meets, step, State, Step};
pub use output::printed;
pub use runner::{run, run_within, Outcome, Run};
pub use set::{set_line, set_line_within, Field};
