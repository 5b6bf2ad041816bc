//! Runs the viability routine over three trays, 20 steps in a call. The second is a bare control tray: nothing was sown.

use archive::{run, Report, State};

fn main() {
    let listing = std::fs::read("examples/viability.lst").expect("started at the root of the repository");
    let trays = [(300u16, 200u16), (0, 0), (10, 11)].map(|(sown, up)| [sown.to_le_bytes(), up.to_le_bytes()].concat());
    let mut results = [0; 3];
    let mut state = State { point: 0, registers: [0; 16] };
    state.registers[1] = trays.len() as u32;
    loop {
        let outcome = run(&listing, state, &trays.concat(), &mut results, 20);
        state = outcome.state;
        match outcome.report {
            Report::Refused { number, .. } => return println!("turned back by {number}"),
            Report::Paused => println!("paused after {} steps at point {}", outcome.steps, state.point),
            Report::Stopped => {
                println!("stopped after {} steps at point {}", outcome.steps, state.point);
                return println!("{} {} {}", results[0], results[1], results[2]);
            }
        }
    }
}
