//! The proved checker, step bound, claim lines, setter and runner, as the static libraries offer them to C. Any bytes, sizes and
//! states may be passed.

/// Number 0 and the points for a listing that passes, else the number of the refusal and its places.
#[derive(Clone, Copy, Debug, PartialEq, Eq)]
pub struct Answer {
    pub number: u64,
    pub place: u64,
    pub second: u64,
    pub points: u64,
}

/// Number 0 and the most steps that a routine can need from point 0, else the number of the refusal and its places.
#[derive(Clone, Copy, Debug, PartialEq, Eq)]
pub struct StepBound {
    pub number: u64,
    pub place: u64,
    pub second: u64,
    pub bound: u64,
}

/// Number 0 and where the claim lines of a point stand in the listing, else the number and the place of the refusal.
#[derive(Clone, Copy, Debug, PartialEq, Eq)]
pub struct ClaimPart {
    pub number: u64,
    pub place: u64,
    pub offset: u64,
    pub length: u64,
}

/// Why a call for claim lines, or one that sets a line, is turned back.
#[derive(Clone, Copy, Debug, PartialEq, Eq)]
pub struct Refusal {
    pub number: u64,
    pub place: u64,
}

/// What a line has in a field. The number of `Negative` is without its minus.
#[derive(Clone, Copy, Debug, PartialEq, Eq)]
pub enum Field {
    Blank,
    Number(u64),
    Negative(u64),
}

/// A point and the registers, as the library lays them out.
#[repr(C)]
#[derive(Clone, Copy, Debug, PartialEq, Eq)]
pub struct State {
    pub point: usize,
    pub registers: [u32; 16],
}

/// How a run ended.
#[derive(Clone, Copy, Debug, PartialEq, Eq)]
pub enum Report {
    Stopped,
    Paused,
    Refused { number: u64, place: u64, second: u64 },
}

/// What a run hands back.
#[derive(Clone, Copy, Debug, PartialEq, Eq)]
pub struct Outcome {
    pub report: Report,
    pub state: State,
    pub steps: u64,
}

extern "C" {
    fn rithwellu_check(listing: *const u8, len: usize, answer: *mut u64);
    fn rithwellu_step_bound(listing: *const u8, len: usize, answer: *mut u64);
    fn rithwellu_print(listing: *const u8, len: usize, line: *mut u8);
    fn rithwellu_print_bound(listing: *const u8, len: usize, line: *mut u8);
    fn rithwellu_claim_lines(listing: *const u8, len: usize, point: usize, answer: *mut u64);
    fn rithwellu_set_line(
        word: *const u8,
        word_len: usize,
        kinds: *const u8,
        numbers: *const u64,
        line: usize,
        listing: *mut u8,
        len: usize,
        answer: *mut u64,
    );
    fn rithwellu_run(
        listing: *const u8,
        listing_len: usize,
        point: usize,
        registers: *mut u32,
        trays: *const u8,
        trays_len: usize,
        results: *mut u8,
        results_len: usize,
        budget: u32,
        answer: *mut u64,
    );
    fn rithwellu_run_in_place(
        listing: *const u8,
        listing_len: usize,
        state: *mut State,
        trays: *const u8,
        trays_len: usize,
        results: *mut u8,
        results_len: usize,
        budget: u32,
        answer: *mut u64,
    );
}

/// The places of a run's answer: report, number, place, second place, steps, point.
type RunAnswer = [u64; 6];

pub fn check(listing: &[u8]) -> Answer {
    let mut answer = [0; 4];
    // SAFETY: the library reads `len` bytes of the listing and writes four numbers
    unsafe { rithwellu_check(listing.as_ptr(), listing.len(), answer.as_mut_ptr()) };
    let [number, place, second, points] = answer;
    Answer { number, place, second, points }
}

/// How many steps a routine needs at most from point 0, in any state that meets its claims.
pub fn step_bound(listing: &[u8]) -> StepBound {
    let mut answer = [0; 4];
    // SAFETY: the library reads `len` bytes of the listing and writes four numbers
    unsafe { rithwellu_step_bound(listing.as_ptr(), listing.len(), answer.as_mut_ptr()) };
    let [number, place, second, bound] = answer;
    StepBound { number, place, second, bound }
}

/// The line that the program prints for a listing.
pub fn printed(listing: &[u8]) -> [u8; 40] {
    let mut line = [0; 40];
    // SAFETY: the library reads `len` bytes of the listing and writes forty bytes
    unsafe { rithwellu_print(listing.as_ptr(), listing.len(), line.as_mut_ptr()) };
    line
}

/// The line that the program prints for the steps of a listing.
pub fn print_bound(listing: &[u8]) -> [u8; 40] {
    let mut line = [0; 40];
    // SAFETY: the library reads `len` bytes of the listing and writes forty bytes
    unsafe { rithwellu_print_bound(listing.as_ptr(), listing.len(), line.as_mut_ptr()) };
    line
}

/// Where the claim lines of a point stand: offset and length in bytes, 0 and 0 where the call is turned back.
pub fn claim_part(listing: &[u8], point: usize) -> ClaimPart {
    let mut answer = [0; 4];
    // SAFETY: the library reads `len` bytes of the listing and writes four numbers
    unsafe { rithwellu_claim_lines(listing.as_ptr(), listing.len(), point, answer.as_mut_ptr()) };
    let [number, place, offset, length] = answer;
    ClaimPart { number, place, offset, length }
}

/// Where the claim lines of a point lie in the listing; of a point without claims, a part of length 0.
pub fn claim_lines(listing: &[u8], point: usize) -> Result<&[u8], Refusal> {
    let ClaimPart { number, place, offset, length } = claim_part(listing, point);
    if number != 0 {
        return Err(Refusal { number, place });
    }
    Ok(&listing[offset as usize..][..length as usize])
}

/// Writes one line of the listing, counted from 1, and leaves every other byte. A refusal, 3 to 5 or 19 with the line
/// as its place or 18, leaves all of them. The listing may have any length.
pub fn set_line(listing: &mut [u8], line: usize, word: &[u8], fields: [Field; 6]) -> Result<(), Refusal> {
    let parts = fields.map(|field| match field {
        Field::Blank => (0, 0),
        Field::Number(number) => (1, number),
        Field::Negative(number) => (2, number),
    });
    match set_line_of_kinds(listing, line, word, &parts.map(|(kind, _)| kind), &parts.map(|(_, number)| number)) {
        [0, _] => Ok(()),
        [number, place] => Err(Refusal { number, place }),
    }
}

/// The same, with fields as the library takes them: kind 0 is a blank, whose number is not looked at, 1 a number, 2 a
/// negative number without its minus, and any other a field of wrong shape. The answer is the number of the refusal
/// and its place, 0 and 0 where the line was set.
#[inline]
pub fn set_line_of_kinds(
    listing: &mut [u8],
    line: usize,
    word: &[u8],
    kinds: &[u8; 6],
    numbers: &[u64; 6],
) -> [u64; 2] {
    let mut answer = [0; 2];
    // SAFETY: the library reads `word_len` bytes of the word, six kinds and six numbers, reads and writes the listing
    // within its length, and writes two numbers
    unsafe {
        rithwellu_set_line(
            word.as_ptr(),
            word.len(),
            kinds.as_ptr(),
            numbers.as_ptr(),
            line,
            listing.as_mut_ptr(),
            listing.len(),
            answer.as_mut_ptr(),
        )
    };
    answer
}

/// Checks the listing and runs it from the state for at most `budget` steps. After a refusal state and results are as
/// they were, and no step was made.
pub fn run(listing: &[u8], state: State, trays: &[u8], results: &mut [u8], budget: u32) -> Outcome {
    let mut registers = state.registers;
    let mut answer: RunAnswer = [0; 6];
    // SAFETY: the library reads the listing and the trays, reads and writes the results, each within its length, and
    // reads and writes sixteen registers and six numbers
    unsafe {
        rithwellu_run(
            listing.as_ptr(),
            listing.len(),
            state.point,
            registers.as_mut_ptr(),
            trays.as_ptr(),
            trays.len(),
            results.as_mut_ptr(),
            results.len(),
            budget,
            answer.as_mut_ptr(),
        )
    };
    let state = State { point: answer[5] as usize, registers };
    Outcome { report: report(&answer), state, steps: answer[4] }
}

/// The same, over a state that is lent and changed in place. A refusal leaves it untouched.
pub fn run_in_place(listing: &[u8], state: &mut State, trays: &[u8], results: &mut [u8], budget: u32) -> (Report, u64) {
    let mut answer: RunAnswer = [0; 6];
    // SAFETY: as in `run`; the state is read and written as it is laid out
    unsafe {
        rithwellu_run_in_place(
            listing.as_ptr(),
            listing.len(),
            state,
            trays.as_ptr(),
            trays.len(),
            results.as_mut_ptr(),
            results.len(),
            budget,
            answer.as_mut_ptr(),
        )
    };
    assert_eq!(answer[5], state.point as u64, "the answer and the state name the same point");
    (report(&answer), answer[4])
}

fn report(answer: &RunAnswer) -> Report {
    let [report, number, place, second, ..] = *answer;
    match report {
        0 => Report::Stopped,
        1 => Report::Paused,
        2 => Report::Refused { number, place, second },
        other => panic!("the library answers report {other}"),
    }
}
