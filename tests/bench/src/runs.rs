//! The runs that are timed.

use crate::listings::{small, typical};
use crate::rows::{print_row, Rows};
use crate::timing::ratio;
use lines::listing;
use std::cell::RefCell;

const TABLE: usize = 65_536;
const RESULTS: u8 = 17;
const TRAYS: u8 = 16;
/// The register that the loops count up to.
const COUNT: usize = 1;

/// One call of the runner: it starts at point 0 with the count in its register and 3 in all others but the index.
struct Timed {
    listing: Vec<u8>,
    count: u32,
    table: usize,
    budget: u32,
}

/// Index 0; while index below count: one access, index plus 1; over every place of the table that has room.
fn access_loop(size: u8, width: u32, access: &str) -> Timed {
    let whole = format!("STRP {size} 1 1 _ _ {};", width - 1);
    let here = format!("STRP {size} 1 0 _ _ {width};");
    let listing = listing(&format!(
        "{whole} SETC 0 _ _ _ _ 0; {whole} BLTU _ 0 _ 3 0 1; STOP; {whole} {here} {access};
         {whole} ADDW 0 0 _ _ 1 1; {whole} JUMP _ _ _ 1"
    ));
    Timed { listing, count: TABLE as u32 - (width - 1), table: TABLE, budget: u32::MAX }
}

/// A loop over each kind of arithmetic, with both kinds of operands and a guarded division.
fn arithmetic() -> Timed {
    let listing = listing(
        "SETC 0 _ _ _ _ 0; BLTU _ 0 _ 3 0 1; STOP; ADDW 2 2 _ _ 0 3; SUBW 3 2 _ _ 0 4; MULW 4 3 _ _ 1 7;
         DIVF 5 4 _ _ 1 3; COPY 6 5; BEQU _ 5 _ 10 1 0; LEAS 5 _ _ _ _ 1; DIVF 4 2 _ _ 0 5; MULW 2 4 _ _ 0 6;
         SUBW 7 7 _ _ 1 1; ADDW 0 0 _ _ 1 1; JUMP _ _ _ 1",
    );
    Timed { listing, count: 20_000, table: 0, budget: u32::MAX }
}

/// A loop of quotients of numbers of 32 bits, by numbers and by a register.
fn quotients() -> Timed {
    let kept = "LEAS 3 _ _ _ _ 1;";
    let listing = listing(&format!(
        "{kept} SETC 0 _ _ _ _ 0; {kept} BLTU _ 0 _ 3 0 1; STOP; {kept} ADDW 2 2 _ _ 1 2654435769;
         {kept} DIVF 4 2 _ _ 1 10; {kept} DIVF 5 2 _ _ 0 3; {kept} DIVF 6 2 _ _ 1 4294967295;
         {kept} ADDW 0 0 _ _ 1 1; {kept} JUMP _ _ _ 1"
    ));
    Timed { listing, count: 35_000, table: 0, budget: u32::MAX }
}

/// A loop of quotients with their remainders, one of which takes the place of the number divided.
fn quotients_and_remainders() -> Timed {
    let kept = "LEAS 3 _ _ _ _ 1;";
    let listing = listing(&format!(
        "{kept} SETC 0 _ _ _ _ 0; {kept} BLTU _ 0 _ 3 0 1; STOP; {kept} ADDW 2 2 _ _ 1 2654435769;
         {kept} DIVM 4 2 5 _ 1 10; {kept} MOST 5 _ _ _ _ 9; DIVM 6 2 7 _ 0 3; {kept} DIVM 8 2 2 _ 1 4294967295;
         {kept} ADDW 0 0 _ _ 1 1; {kept} JUMP _ _ _ 1"
    ));
    Timed { listing, count: 35_000, table: 0, budget: u32::MAX }
}

/// A call that pauses soon.
fn short(listing: Vec<u8>) -> Timed {
    Timed { listing, count: 20, table: 256, budget: 10 }
}

pub fn print_runs(rows: &mut Rows) {
    let runs = [
        ("stores of 4 bytes", access_loop(RESULTS, 4, "STOR 2 4 _ 1 0 0")),
        ("loads of 1 byte", access_loop(TRAYS, 1, "LOAD 2 1 0 1 0 0")),
        ("loads of 2 bytes", access_loop(TRAYS, 2, "LOAD 2 2 0 1 0 0")),
        ("loads of 4 bytes", access_loop(TRAYS, 4, "LOAD 2 4 0 1 0 0")),
        ("arithmetic", arithmetic()),
        ("quotients", quotients()),
        ("quotients and remainders", quotients_and_remainders()),
        ("budget 10, 6 points", short(small())),
        ("budget 10, 512 points", short(typical(512))),
    ];
    rows.table("runs, each with its check", "steps");
    for (name, timed) in &runs {
        if rows.want(name) {
            print_run(name, timed);
        }
    }
}

/// The two are timed after they have handed back the same.
fn print_run(name: &str, timed: &Timed) {
    let mut registers = [3; 16];
    (registers[0], registers[COUNT]) = (0, timed.count);
    let trays: Vec<u8> = (0..timed.table).map(|at| (at * 37 % 251) as u8).collect();
    let results = RefCell::new(vec![0; timed.table]);
    let by_archive = || {
        let state = archive::State { point: 0, registers };
        archive::run(&timed.listing, state, &trays, &mut results.borrow_mut(), timed.budget)
    };
    let by_twin = || {
        let state = twin::State { point: 0, registers };
        twin::run(&timed.listing, state, &trays, &mut results.borrow_mut(), timed.budget)
    };
    let left = (by_archive(), results.replace(vec![0; timed.table]));
    let right = (by_twin(), results.replace(vec![0; timed.table]));
    let reports = (left.0.report, right.0.report);
    let agree = matches!(
        reports,
        (archive::Report::Stopped, twin::Report::Stopped) | (archive::Report::Paused, twin::Report::Paused)
    );
    assert!(agree, "{name}: {reports:?}");
    let (one, other) = (left.0.state, right.0.state);
    assert_eq!((one.point, one.registers, left.1), (other.point, other.registers, right.1), "{name}");
    assert_eq!(left.0.steps, u64::from(right.0.steps), "{name}");
    let measured = ratio(&|| by_archive().steps, &|| u64::from(by_twin().steps));
    print_row(name, left.0.steps as usize, &measured);
}
