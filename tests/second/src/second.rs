//! The comparison of the proved library with the second program.
//!
//! `second [SEED]`: the same seed gives the same cases. Progress goes to
//! standard error; differences, coverage and the last line, which says how it
//! ended, to standard output. The status is 0 only if there was no difference
//! and every floor of the coverage was reached.

mod bench_table;
mod coverage;
mod damage;
mod library;
mod logs;
mod make_log;
mod moves;
mod schedules;
mod tally;
mod walk;

use std::process::ExitCode;
use std::time::Instant;

use peer::random::Random;
use tally::Tally;

const DEFAULT_SEED: u64 = 20_040_505;

const SINGLE_MOVES: u64 = 4_000_000;
const SCHEDULES: u64 = 600_000;
const LOGS: u64 = 600_000;

fn main() -> ExitCode {
    let seed = match std::env::args().nth(1).map(|text| text.parse::<u64>()) {
        None => DEFAULT_SEED,
        Some(Ok(seed)) => seed,
        Some(Err(_)) => {
            println!("second: the seed must be a number from 0 to {}", u64::MAX);
            return ExitCode::FAILURE;
        }
    };
    println!("seed {seed}");
    let mut tally = Tally::default();
    let begun = Instant::now();
    let mut phase = |name: &str, number: u64, work: &dyn Fn(&mut Tally, &mut Random)| {
        eprintln!("second: {name}, {:.1} s so far", begun.elapsed().as_secs_f64());
        tally.begin_phase(name);
        // Each phase has its own numbers, so one of them can change alone.
        work(&mut tally, &mut Random::new(seed.wrapping_mul(8).wrapping_add(number)));
        tally.end_phase();
    };
    phase("bench table", 0, &|tally, _| bench_table::check(tally));
    phase("every control state", 0, &moves::check_every_control_state);
    phase("single moves", 1, &|tally, random| moves::check_random(tally, random, SINGLE_MOVES));
    phase("every small log of two values", 2, &|tally, random| {
        logs::check_every_small_log(tally, random, 12, 2)
    });
    phase("every small log of three values", 3, &|tally, random| {
        logs::check_every_small_log(tally, random, 10, 3)
    });
    phase("logs", 4, &|tally, random| logs::check_random(tally, random, LOGS));
    phase("schedules", 5, &|tally, random| schedules::check_random(tally, random, SCHEDULES));
    eprintln!("second: done in {:.1} s", begun.elapsed().as_secs_f64());

    let below = tally.coverage.report();
    if tally.differences > 0 {
        println!("second: {} cases, {} differences", tally.cases, tally.differences);
        return ExitCode::FAILURE;
    }
    if !below.is_empty() {
        println!("second: {} cases, too few of: {}", tally.cases, below.join("; "));
        return ExitCode::FAILURE;
    }
    println!("second: {} cases, 0 differences", tally.cases);
    ExitCode::SUCCESS
}
