//! The proved library and the second program's fast judge and run, measured
//! side by side on the same inputs: nanoseconds per byte of input, and how
//! many times as long the library takes. Each number is the least of several
//! measurements, taken in turn.
//!
//! For a count of instructions, which another program makes, `shapes` lists
//! the inputs and `repeat SIDE SHAPE SIZE TIMES` only makes the calls.

mod inputs;

use std::env;
use std::hint::black_box;
use std::process::exit;
use std::time::Instant;

use inputs::{Shape, LOGS, SCHEDULES};
use peer::{fast_judge, fast_run};

extern "C" {
    fn chaemodul_judge(log: *const u8, log_len: usize, answer: *mut [u32; 7]) -> u32;
    fn chaemodul_run(
        schedule: *const u8,
        schedule_len: usize,
        out: *mut u8,
        out_len: usize,
        answer: *mut [u32; 3],
    ) -> u32;
}

const MEASUREMENTS: usize = 15;
/// Each measurement repeats the call until about so many bytes were read.
const BYTES_PER_MEASUREMENT: usize = 1 << 19;

fn library_judge(log: &[u8]) -> [u32; 7] {
    let mut answer = [0; 7];
    // SAFETY: the pointers come with their true lengths and outlive the call.
    unsafe { chaemodul_judge(log.as_ptr(), log.len(), &mut answer) };
    answer
}

fn peer_judge(log: &[u8]) -> [u32; 7] {
    fast_judge::judge(log).words()
}

fn library_run(schedule: &[u8], out: &mut [u8]) -> [u32; 3] {
    let mut answer = [0; 3];
    // SAFETY: as above, and an exclusive borrow overlaps no other.
    unsafe {
        chaemodul_run(schedule.as_ptr(), schedule.len(), out.as_mut_ptr(), out.len(), &mut answer)
    };
    answer
}

fn peer_run(schedule: &[u8], out: &mut [u8]) -> [u32; 3] {
    fast_run::run(schedule, out).words()
}

/// Nanoseconds per byte of one measurement.
fn measure(input: &[u8], call: &mut dyn FnMut(&[u8]) -> u32) -> f64 {
    let times = (BYTES_PER_MEASUREMENT / input.len()).max(1);
    let begun = Instant::now();
    for _ in 0..times {
        black_box(call(black_box(input)));
    }
    begun.elapsed().as_nanos() as f64 / (times * input.len()) as f64
}

fn compare(
    name: &str,
    input: &[u8],
    library: &mut dyn FnMut(&[u8]) -> u32,
    peer: &mut dyn FnMut(&[u8]) -> u32,
) {
    let mut least = (f64::MAX, f64::MAX);
    for _ in 0..MEASUREMENTS {
        least.0 = least.0.min(measure(input, library));
        least.1 = least.1.min(measure(input, peer));
    }
    let ratio = least.0 / least.1;
    println!("{name:<38} {:>6} {:>9.3} {:>9.3} {ratio:>8.2}", input.len(), least.0, least.1);
}

fn heading(what: &str) {
    println!("{what:<38} {:>6} {:>9} {:>9} {:>8}", "bytes", "library", "second", "ratio");
}

fn judge_shape(shape: &Shape, size: usize) {
    let log = (shape.make)(size);
    assert_eq!(library_judge(&log), peer_judge(&log), "the judges differ on: {}", shape.name);
    assert_eq!(peer_judge(&log)[0], 0, "a refused log: {}", shape.name);
    compare(shape.name, &log, &mut |log| library_judge(log)[0], &mut |log| peer_judge(log)[0]);
}

fn run_shape(shape: &Shape, size: usize) {
    let schedule = (shape.make)(size);
    let (mut ours, mut theirs) = (vec![0; 2 * size], vec![0; 2 * size]);
    let answer = peer_run(&schedule, &mut ours);
    assert_eq!(library_run(&schedule, &mut theirs), answer, "the runs differ on: {}", shape.name);
    assert!(ours == theirs, "the logs differ on: {}", shape.name);
    assert_eq!(answer[0], 0, "a refused schedule: {}", shape.name);
    compare(
        shape.name,
        &schedule,
        &mut |schedule| library_run(schedule, &mut theirs)[0],
        &mut |schedule| peer_run(schedule, &mut ours)[0],
    );
}

/// A well-formed log has at most 65,534 bytes; 32 KiB is a schedule's limit.
const LOG_SIZES: [usize; 4] = [8 << 10, 16 << 10, 32 << 10, 65_534];
const SCHEDULE_SIZES: [usize; 3] = [8 << 10, 16 << 10, 32 << 10];

fn times() {
    println!("nanoseconds per byte of input; ratio: the library's time over the second program's");
    heading("judge");
    for shape in &LOGS {
        for size in LOG_SIZES {
            judge_shape(shape, size);
        }
    }
    heading("run");
    for shape in &SCHEDULES {
        for size in SCHEDULE_SIZES {
            run_shape(shape, size);
        }
    }
}

/// The input of a shape by its number, logs first.
fn numbered(number: usize, size: usize) -> Vec<u8> {
    match LOGS.get(number) {
        Some(shape) => (shape.make)(size),
        None => (SCHEDULES[number - LOGS.len()].make)(size),
    }
}

/// A line for each shape at its least and its greatest size: its number, the size, its bytes, its name.
fn list_shapes() {
    let logs = LOGS.iter().map(|shape| (shape, 65_534, "judge"));
    let schedules = SCHEDULES.iter().map(|shape| (shape, 32 << 10, "run"));
    for (number, (shape, greatest, what)) in logs.chain(schedules).enumerate() {
        for size in [8 << 10, greatest] {
            println!("{number} {size} {} {what}: {}", numbered(number, size).len(), shape.name);
        }
    }
}

/// Makes the calls alone: one side, one shape of a size, so many times.
fn repeat(side: &str, number: usize, size: usize, times: usize) {
    let mut out = vec![0; 1 << 16];
    let input = numbered(number, size);
    for _ in 0..times {
        let input = black_box(&input[..]);
        black_box(match (number < LOGS.len(), side == "library") {
            (true, true) => library_judge(input)[0],
            (true, false) => peer_judge(input)[0],
            (false, true) => library_run(input, &mut out)[0],
            (false, false) => peer_run(input, &mut out)[0],
        });
    }
}

fn main() {
    let words: Vec<String> = env::args().skip(1).collect();
    let words: Vec<&str> = words.iter().map(String::as_str).collect();
    match words[..] {
        [] => times(),
        ["shapes"] => list_shapes(),
        ["repeat", side @ ("library" | "second"), number, size, times] => {
            match (number.parse(), size.parse(), times.parse()) {
                (Ok(number), Ok(size), Ok(times)) if number < LOGS.len() + SCHEDULES.len() => {
                    repeat(side, number, size, times)
                }
                _ => exit(2),
            }
        }
        _ => exit(2),
    }
}
