//! Two functions timed in turns, so that a slow moment of the machine meets both. What counts is the time that this
//! thread spent on a processor, so that other work on the machine does not.

use std::hint::black_box;
use std::time::Duration;

const ROUNDS: usize = 31;
/// In each round the two take turns this often.
const TURNS: u32 = 16;
/// Short against the moments in which other work slows a processor down.
const TURN: Duration = Duration::from_micros(500);

/// Times of one call in microseconds, and their ratios, each sorted.
pub struct Measured {
    pub left: Vec<f64>,
    pub right: Vec<f64>,
    pub ratios: Vec<f64>,
}

/// Left over right, in several rounds of many short turns.
pub fn ratio(left: &dyn Fn() -> u64, right: &dyn Fn() -> u64) -> Measured {
    let (left_calls, right_calls) = (calls(left), calls(right));
    let mut measured = Measured { left: Vec::new(), right: Vec::new(), ratios: Vec::new() };
    for _ in 0..ROUNDS {
        let (mut left_time, mut right_time) = (Duration::ZERO, Duration::ZERO);
        for turn in 0..TURNS {
            // each goes first as often as the other
            if turn % 2 == 0 {
                left_time += repeated(left, left_calls);
                right_time += repeated(right, right_calls);
            } else {
                right_time += repeated(right, right_calls);
                left_time += repeated(left, left_calls);
            }
        }
        let (one, other) = (microseconds(left_time, left_calls), microseconds(right_time, right_calls));
        measured.left.push(one);
        measured.right.push(other);
        measured.ratios.push(one / other);
    }
    for times in [&mut measured.left, &mut measured.right, &mut measured.ratios] {
        times.sort_by(f64::total_cmp);
    }
    measured
}

/// How many calls fill a turn.
fn calls(call: &dyn Fn() -> u64) -> u32 {
    let mut calls = 1;
    loop {
        if repeated(call, calls) >= TURN {
            return calls;
        }
        calls *= 2;
    }
}

/// Microseconds for one call, over all turns.
fn microseconds(time: Duration, calls: u32) -> f64 {
    time.as_secs_f64() * 1e6 / f64::from(calls * TURNS)
}

fn repeated(call: &dyn Fn() -> u64, calls: u32) -> Duration {
    let start = processor_time();
    for _ in 0..calls {
        black_box(call());
    }
    processor_time() - start
}

#[repr(C)]
struct Timespec {
    seconds: i64,
    nanoseconds: i64,
}

extern "C" {
    fn clock_gettime(clock: i32, time: *mut Timespec) -> i32;
}

/// CLOCK_THREAD_CPUTIME_ID on Linux.
const THREAD_CLOCK: i32 = 3;

fn processor_time() -> Duration {
    let mut time = Timespec { seconds: 0, nanoseconds: 0 };
    // SAFETY: the call writes one timespec, which on 64-bit Linux is two 64-bit numbers
    let status = unsafe { clock_gettime(THREAD_CLOCK, &mut time) };
    assert_eq!(status, 0, "the thread has a clock");
    Duration::new(time.seconds as u64, time.nanoseconds as u32)
}
