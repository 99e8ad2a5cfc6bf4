//! Judgements compared, of logs of runs, of random well-formed logs, of
//! damaged ones, cut at every byte, and at the limit; small logs also with the
//! judgement by every order.

use peer::brute;
use peer::events::JudgeAnswer;
use peer::fast_judge;
use peer::files::*;
use peer::random::Random;
use peer::run;

use crate::damage::damaged;
use crate::library;
use crate::make_log::{log_of_events, longest_log};
use crate::tally::{hex, Tally};
use crate::walk::schedule_of_moves;

/// Logs of at most so many operations are judged by every order too.
const SMALL: usize = 8;
/// No longer log has so few operations.
const SMALL_BYTES: usize = 7 + 10 * SMALL;

pub fn check_random(tally: &mut Tally, random: &mut Random, cases: u64) {
    let end = tally.cases + cases;
    while tally.cases < end {
        match random.below(400) {
            0 => at_the_limit(tally, random),
            1..=4 => cut_at_every_byte(tally, random),
            5..=59 => fields_at_random(tally, random),
            60..=69 => bytes_at_random(tally, random),
            70..=149 => damaged_log(tally, random),
            150..=179 => log_of_a_run(tally, random),
            180..=199 => long_log(tally, random),
            _ => log(tally, random),
        }
    }
}

fn compare(tally: &mut Tally, random: &mut Random, log: &[u8]) -> JudgeAnswer {
    let kept = log.to_vec();
    let fast = fast_judge::judge(log);
    let mut answer = [random.value(); 7];
    let returned = library::judge(log, &mut answer);
    let small = log.len() <= SMALL_BYTES && brute::operations_in(log) <= SMALL;
    let by_every_order = if small { brute::judge(log) } else { fast };

    tally.cases += 1;
    let library_agrees = answer == fast.words() && returned == fast.answer && log == kept;
    if by_every_order != fast || !library_agrees {
        let by_every_order = match small {
            true => format!("{:?}", by_every_order.words()),
            false => "not tried".to_string(),
        };
        let lines = [
            ("log", hex(&kept)),
            ("numbers", "answer, place, atomic, first, writes, reads, overlapped".to_string()),
            ("second program", format!("{:?}", fast.words())),
            ("by every order", by_every_order),
            ("library       ", format!("{answer:?}, gave back {returned}")),
            ("log unchanged ", (log == kept).to_string()),
        ];
        tally.difference("a judgement", &lines);
    }
    tally.coverage.brute += u64::from(small && fast.answer == 0);
    fast
}

/// Compares the judgements of a random log and notes what it reached.
fn check(tally: &mut Tally, random: &mut Random, log: &[u8]) {
    let judged = compare(tally, random, log);
    let coverage = &mut tally.coverage;
    coverage.log_answers[judged.answer as usize] += 1;
    if judged.answer == 0 {
        coverage.verdicts[judged.atomic as usize] += 1;
        coverage.late_failures += u64::from(judged.first > 1);
        coverage.overlapped += u64::from(judged.overlapped > 0);
        coverage.open_writes += u64::from(ends_with_open_write(log));
    }
}

fn ends_with_open_write(log: &[u8]) -> bool {
    let mut fields = Fields::from(Kind::Log, log, 0);
    let mut open = false;
    while let Ok(Some(field)) = fields.next() {
        match field.tag {
            WRITE_BEGAN => open = true,
            WRITE_ENDED => open = false,
            _ => (),
        }
    }
    open
}

/// The log as a part of a larger buffer of random bytes.
fn check_embedded(tally: &mut Tally, random: &mut Random, log: &[u8]) {
    let (offset, behind) = (random.below(16), random.below(12));
    let mut buffer = random.bytes(offset + log.len() + behind);
    buffer[offset..offset + log.len()].copy_from_slice(log);
    check(tally, random, &buffer[offset..offset + log.len()]);
}

fn log(tally: &mut Tally, random: &mut Random) {
    let most = random.pick(&[12, 16, 60, 200]);
    let events = random.between(0, most);
    let log = log_of_events(random, events);
    check_embedded(tally, random, &log);
}

fn long_log(tally: &mut Tally, random: &mut Random) {
    let events = random.between(200, 2_000);
    let log = log_of_events(random, events);
    check_embedded(tally, random, &log);
}

/// The log of a run, as it is or with one byte of it changed.
fn log_of_a_run(tally: &mut Tally, random: &mut Random) {
    let moves = random.between(0, 300);
    let schedule = schedule_of_moves(random, moves);
    let mut log = vec![0; 2 * schedule.len() + 16];
    let length = run::run(&schedule, &mut log).length as usize;
    log.truncate(length);
    check(tally, random, &log);
    let at = random.below(length);
    log[at] = log[at].wrapping_add(random.pick(&[1, 255]));
    check(tally, random, &log);
}

fn damaged_log(tally: &mut Tally, random: &mut Random) {
    let events = random.between(0, 40);
    let log = log_of_events(random, events);
    let log = damaged(random, &log);
    check_embedded(tally, random, &log);
}

/// The bytes behind the cut stay in the buffer, so reading on would be seen.
fn cut_at_every_byte(tally: &mut Tally, random: &mut Random) {
    let events = random.between(1, 30);
    let mut log = log_of_events(random, events);
    if random.chance(1, 3) {
        log = damaged(random, &log);
    }
    for length in 0..=log.len() {
        check(tally, random, &log[..length]);
    }
}

/// Sound fields of logs, each party's mostly in turn.
fn fields_at_random(tally: &mut Tally, random: &mut Random) {
    let mut log = Vec::new();
    if !random.chance(1, 20) {
        push_value(&mut log, INITIAL, random.bit());
    }
    for _ in 0..random.between(0, 10) {
        match random.below(4) {
            0 => push_value(&mut log, WRITE_BEGAN, random.bit()),
            1 => push_field(&mut log, WRITE_ENDED, &[]),
            2 => push_field(&mut log, READ_BEGAN, &[]),
            _ => push_value(&mut log, READ_ENDED, random.bit()),
        }
    }
    check(tally, random, &log);
}

fn bytes_at_random(tally: &mut Tally, random: &mut Random) {
    let length = random.below(24);
    let mut log = random.bytes(length);
    if random.chance(1, 2) {
        log.iter_mut().for_each(|byte| *byte %= 12);
    }
    check(tally, random, &log);
}

/// Logs around 65,535 bytes: the longest well-formed one has 65,534.
fn at_the_limit(tally: &mut Tally, random: &mut Random) {
    let mut log = longest_log(random);
    check(tally, random, &log);
    for cut in 1..=10 {
        check(tally, random, &log[..log.len() - cut]);
    }
    let at = random.pick(&[10, 30_000, log.len() - 1]);
    let byte = log[at];
    log[at] ^= 1 << random.below(8);
    check(tally, random, &log);
    log[at] = byte;
    log.extend_from_slice(&[random.pick(&[WRITE_ENDED, READ_BEGAN, 0]), 0, 0]);
    let rest = random.bytes(5_000);
    log.extend_from_slice(&rest);
    for length in [65_535, 65_536, 65_537, 65_538, 70_000] {
        check(tally, random, &log[..length]);
    }
}

/// Every well-formed log of at most so many events, with the values from 0 up
/// to `values` (not included) and the initial value 0.
pub fn check_every_small_log(tally: &mut Tally, random: &mut Random, events: usize, values: u32) {
    let mut log = Vec::new();
    push_value(&mut log, INITIAL, 0);
    extend(tally, random, &mut log, (false, false), events, values);
}

fn extend(
    tally: &mut Tally,
    random: &mut Random,
    log: &mut Vec<u8>,
    (write_open, read_open): (bool, bool),
    events: usize,
    values: u32,
) {
    compare(tally, random, log);
    if events == 0 {
        return;
    }
    let length = log.len();
    for value in 0..values {
        if !write_open {
            push_value(log, WRITE_BEGAN, value);
            extend(tally, random, log, (true, read_open), events - 1, values);
            log.truncate(length);
        }
        if read_open {
            push_value(log, READ_ENDED, value);
            extend(tally, random, log, (write_open, false), events - 1, values);
            log.truncate(length);
        }
    }
    if write_open {
        push_field(log, WRITE_ENDED, &[]);
        extend(tally, random, log, (false, read_open), events - 1, values);
        log.truncate(length);
    }
    if !read_open {
        push_field(log, READ_BEGAN, &[]);
        extend(tally, random, log, (write_open, true), events - 1, values);
        log.truncate(length);
    }
}
