//! Every listing in examples/ has the printed line that stands beside it, and the viability routine computes.

use reference::{check, printed, run, Outcome, State};
use std::fs;
use std::path::PathBuf;

fn examples() -> PathBuf {
    PathBuf::from(env!("CARGO_MANIFEST_DIR")).join("../../examples")
}

#[test]
fn every_example_has_its_line() {
    let mut seen = 0;
    for entry in fs::read_dir(examples()).unwrap() {
        let path = entry.unwrap().path();
        if path.extension().is_none_or(|extension| extension != "lst") {
            continue;
        }
        let listing = fs::read(&path).unwrap();
        let expected = fs::read(path.with_extension("expected")).unwrap();
        assert_eq!(printed(&check(&listing)).to_vec(), expected, "{}", path.display());
        seen += 1;
    }
    assert_eq!(seen, 24);
}

fn record(sown: u16, sprouted: u16) -> [u8; 4] {
    let ([a, b], [c, d]) = (sown.to_le_bytes(), sprouted.to_le_bytes());
    [a, b, c, d]
}

#[test]
fn viability_of_four_trays() {
    let listing = fs::read(examples().join("viability.lst")).unwrap();
    // an ordinary tray, a bare control tray, a full one, and one with more sprouts than seeds
    let trays = [record(300, 200), record(0, 0), record(60_000, 60_000), record(10, 11)].concat();
    let mut results = [7; 5];
    let mut start = State { point: 0, registers: [0; 16] };
    start.registers[1] = 4;
    let ran = run(&listing, start, &trays, &mut results, 1000);
    assert_eq!(ran.outcome, Outcome::Stopped);
    assert_eq!(results, [67, 0, 100, 255, 7]);
}
