//! Makes a call smaller while it keeps a property: a shorter listing, a smaller budget, registers and tables.

use super::call::Call;
use crate::shrink::{is_claim, shrink};
use lines::LINE;
use std::cell::Cell;

type Keeps<'a> = &'a dyn Fn(&Call) -> bool;

const MOST_TRIES: u32 = 20_000;

/// The smallest call found that still keeps the property, after a bounded number of tries.
pub fn shrink_call(call: &Call, keeps: Keeps) -> Call {
    let tries = Cell::new(0);
    let keeps: Keeps = &|candidate| {
        tries.set(tries.get() + 1);
        tries.get() <= MOST_TRIES && keeps(candidate)
    };
    let mut smallest = call.clone();
    loop {
        let before = smallest.clone();
        lower_budget(&mut smallest, keeps);
        shorten_listing(&mut smallest, keeps);
        lower_state(&mut smallest, keeps);
        shorten_tables(&mut smallest, keeps);
        if smallest == before {
            return smallest;
        }
    }
}

/// Takes the candidate if it keeps the property.
fn take(smallest: &mut Call, candidate: Call, keeps: Keeps) -> bool {
    let taken = candidate != *smallest && keeps(&candidate);
    if taken {
        *smallest = candidate;
    }
    taken
}

/// The smallest number found that keeps the property: 0, half, three quarters and so on up to one less.
fn lowered(present: u64, keeps: &mut dyn FnMut(u64) -> bool) {
    let mut present = present;
    while present > 0 {
        let parts = (1..u64::BITS).map(|halvings| present >> halvings).take_while(|&part| part != 0);
        let lower = [0].into_iter().chain(parts.map(|part| present - part)).chain([present - 1]);
        match lower.into_iter().find(|&lower| lower < present && keeps(lower)) {
            Some(lower) => present = lower,
            None => return,
        }
    }
}

fn lower_budget(smallest: &mut Call, keeps: Keeps) {
    let present = u64::from(smallest.budget);
    lowered(present, &mut |budget| take(smallest, Call { budget: budget as u32, ..smallest.clone() }, keeps));
}

/// A shorter listing, with the state where it was, as many points before as were dropped, or at point 0.
fn shorten_listing(smallest: &mut Call, keeps: Keeps) {
    let call = smallest.clone();
    let placed = |listing: &[u8]| {
        let dropped = points(&call.listing).saturating_sub(points(listing));
        let moved = call.state.point.saturating_sub(dropped);
        [call.state.point, moved, 0].into_iter().find_map(|point| {
            let mut candidate = call.with_listing(listing);
            candidate.state.point = point;
            keeps(&candidate).then_some(candidate)
        })
    };
    let listing = shrink(&call.listing, &|listing| placed(listing).is_some());
    if let Some(placed) = placed(&listing) {
        *smallest = placed;
    }
}

fn points(listing: &[u8]) -> u64 {
    listing.chunks(LINE).filter(|line| !is_claim(line)).count() as u64
}

fn lower_state(smallest: &mut Call, keeps: Keeps) {
    let present = smallest.state.point;
    lowered(present, &mut |point| {
        let mut candidate = smallest.clone();
        candidate.state.point = point;
        take(smallest, candidate, keeps)
    });
    for register in 0..smallest.state.registers.len() {
        let present = u64::from(smallest.state.registers[register]);
        lowered(present, &mut |value| {
            let mut candidate = smallest.clone();
            candidate.state.registers[register] = value as u32;
            take(smallest, candidate, keeps)
        });
    }
}

fn shorten_tables(smallest: &mut Call, keeps: Keeps) {
    shorten(smallest, |call| &mut call.trays, keeps);
    shorten(smallest, |call| &mut call.results, keeps);
}

/// Fewer bytes, and zeros in their place.
fn shorten(smallest: &mut Call, table: fn(&mut Call) -> &mut Vec<u8>, keeps: Keeps) {
    let present = table(smallest).len() as u64;
    lowered(present, &mut |length| {
        let mut candidate = smallest.clone();
        table(&mut candidate).truncate(length as usize);
        take(smallest, candidate, keeps)
    });
    let mut zeroed = smallest.clone();
    table(&mut zeroed).fill(0);
    take(smallest, zeroed, keeps);
}

#[cfg(test)]
mod tests {
    use super::*;
    use lines::listing;
    use reference::State;

    #[test]
    fn only_what_matters_is_left() {
        let listing_of = |text| listing(text);
        let state = State { point: 2, registers: [9; 16] };
        let listing = listing_of("SETC 3 _ _ _ _ 77; COPY 1 2; STOP; STOP");
        let call = Call { listing, state, trays: vec![5; 100], results: vec![6; 100], budget: u32::MAX };
        let at_stop = |call: &Call| {
            let line = call.listing.chunks(LINE).nth(call.state.point as usize);
            line.is_some_and(|line| line.starts_with(b"STOP"))
        };
        let keeps =
            |call: &Call| at_stop(call) && call.trays.len() >= 7 && call.state.registers[4] >= 3 && call.budget >= 1000;
        let smallest = shrink_call(&call, &keeps);
        assert_eq!(smallest.listing, listing_of("STOP"));
        assert_eq!((smallest.state.point, smallest.budget), (0, 1000));
        assert_eq!((smallest.trays, smallest.results), (vec![0; 7], vec![]));
        assert_eq!(smallest.state.registers.iter().sum::<u32>(), 3);
    }
}
