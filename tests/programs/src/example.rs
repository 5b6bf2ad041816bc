//! The example for C, started where its listing is not.

use crate::expect::{ensure, Test};
use crate::folder::{root, Folder};
use crate::process::said;
use std::process::Command;

/// Stands in for the archive, which is not called where there is no listing.
const STAND_IN: &str = "#include \"rithwellu.h\"\nvoid rithwellu_run_in_place(const uint8_t *listing, size_t length, \
    rithwellu_state *state, const uint8_t *trays, size_t trays_length, uint8_t *results, size_t results_length, \
    uint32_t budget, uint64_t *answer) { (void)listing, (void)length, (void)state, (void)trays, (void)trays_length, \
    (void)results, (void)results_length, (void)budget, (void)answer; }\n";

pub fn tests() -> Vec<Test> {
    vec![("the example for C says what it misses", without_listing)]
}

fn without_listing() -> Result<(), String> {
    let folder = Folder::new("example");
    folder.put("stand_in.c", STAND_IN.as_bytes());
    let mut compiler = Command::new("cc");
    compiler.arg("-I").arg(root().join("include")).arg(root().join("examples/run.c"));
    let compiled = said(compiler.arg(folder.at("stand_in.c")).arg("-o").arg(folder.at("run")));
    ensure(compiled.status == 0, || format!("it does not compile: {compiled:?}"))?;
    let said = said(Command::new(folder.at("run")).current_dir(folder.place()));
    let told = said.status != 0 && said.output.is_empty() && said.error.contains("examples/viability.lst");
    ensure(told, || format!("{said:?}"))
}
