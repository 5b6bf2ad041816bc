//! Runs of routines with dead stretches: from points that a state may stand at, and from empty ones, where none may.

use super::families::{from_any_point as from_some_point, from_several_points, trial, Trial};
use super::starts::at_empty;
use crate::families::{dead_stretches, empty_points};
use crate::random::Random;
use reference::{check, read};

/// A routine, from several starts.
pub fn from_any_point(random: &mut Random) -> Vec<Trial> {
    let text = dead_stretches::routine_with_stretches(random).text();
    from_several_points(random, &text)
}

/// A listing that passes, from a state at one of its empty points.
pub fn at_empty_points(random: &mut Random) -> Vec<Trial> {
    let makers = [
        dead_stretches::skipped,
        dead_stretches::in_routines,
        dead_stretches::in_loops,
        empty_points::one_point,
        empty_points::overwritten,
        empty_points::led_to,
    ];
    let text = random.pick(&makers)(random).swap_remove(0);
    if check(&text).number != 0 {
        return vec![];
    }
    let start = at_empty(random, &read(&text).expect("it passes"));
    start.map(|start| trial(random, &text, start, 1)).into_iter().collect()
}

/// A listing that passes, with points that are empty and points that are nearly so, from a state that meets its claims.
pub fn nearly_empty(random: &mut Random) -> Vec<Trial> {
    let makers = [empty_points::led_to, empty_points::one_point, empty_points::at_point_0, empty_points::among_points];
    let text = random.pick(&makers)(random).swap_remove(0);
    if check(&text).number != 0 {
        return vec![];
    }
    let points = read(&text).expect("it passes");
    from_some_point(random, &text, &points, 3).into_iter().collect()
}
