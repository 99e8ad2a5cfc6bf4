//! Runs compared: the answer, and every byte of the output and around it; the
//! schedules are walks, damaged walks, cut at every byte, and at the limits.

use peer::fast_run;
use peer::files::*;
use peer::machine::Move;
use peer::random::Random;
use peer::run::{self, RunAnswer};

use crate::coverage::Moves;
use crate::damage::damaged;
use crate::library;
use crate::tally::{hex, hex_words, Tally};
use crate::walk::{push_move, schedule_of_bytes, schedule_of_moves};

pub fn check_random(tally: &mut Tally, random: &mut Random, cases: u64) {
    let end = tally.cases + cases;
    while tally.cases < end {
        match random.below(400) {
            0 => at_the_limit(tally, random),
            1..=4 => cut_at_every_byte(tally, random),
            5..=8 => every_room(tally, random),
            9..=59 => fields_at_random(tally, random),
            60..=69 => bytes_at_random(tally, random),
            70..=179 => damaged_walk(tally, random),
            180..=199 => long_walk(tally, random),
            _ => walk(tally, random),
        }
    }
}

/// Runs a part of the buffer as a schedule, with an output of so many bytes.
fn check(tally: &mut Tally, random: &mut Random, schedule: &[u8], room: usize) -> RunAnswer {
    // The output lies inside a larger buffer of random bytes, none of which may change.
    let (before, behind) = (random.below(9), random.below(9));
    let found = random.bytes(before + room + behind);
    let span = before..before + room;
    let kept = schedule.to_vec();

    let mut plain_out = found.clone();
    let mut moves = Moves::default();
    let plain = run::run_watched(schedule, &mut plain_out[span.clone()], |state, the_move| {
        moves.note(state, the_move)
    });
    let mut fast_out = found.clone();
    let fast = fast_run::run(schedule, &mut fast_out[span.clone()]);
    let mut library_out = found.clone();
    let mut answer = [random.value(), random.value(), random.value()];
    let returned = library::run(schedule, &mut library_out[span], &mut answer);

    tally.cases += 1;
    let expected = plain.words();
    let library_agrees = answer == expected
        && returned == plain.answer
        && library_out == plain_out
        && schedule == kept;
    if fast != plain || fast_out != plain_out || !library_agrees {
        let lines = [
            ("schedule", hex(&kept)),
            ("room", room.to_string()),
            ("output before ", hex(&found)),
            ("second program", format!("{expected:?}, output {}", hex(&plain_out))),
            ("second, fast  ", format!("{:?}, output {}", fast.words(), hex(&fast_out))),
            ("library       ", format!("{answer:?}, output {}", hex(&library_out))),
            ("library gave back", hex_words(&[returned])),
            ("schedule unchanged", (schedule == kept).to_string()),
        ];
        tally.difference("a run", &lines);
    }
    tally.coverage.schedule_answers[plain.answer as usize] += 1;
    if plain.answer == 0 {
        tally.coverage.add_run(&moves);
    }
    plain
}

/// The length of the log, if the schedule is allowed.
fn log_length(schedule: &[u8]) -> usize {
    let mut out = vec![0; 2 * schedule.len() + 16];
    run::run(schedule, &mut out).length as usize
}

/// A room for a log of about this length: mostly enough.
fn some_room(random: &mut Random, length: usize) -> usize {
    match random.below(10) {
        0 => random.below(length + 1),
        1 => length.saturating_sub(1),
        2 | 3 => length,
        4 => length + 1,
        _ => length + random.below(40),
    }
}

/// The same schedule as a part of a larger buffer, from its offset on.
fn embedded(random: &mut Random, schedule: &[u8]) -> (Vec<u8>, usize) {
    let offset = random.below(16);
    let mut buffer = random.bytes(offset);
    buffer.extend_from_slice(schedule);
    buffer.extend_from_slice(&random.bytes(8));
    (buffer, offset)
}

fn walk(tally: &mut Tally, random: &mut Random) {
    let most = random.pick(&[10, 60, 200]);
    let moves = random.between(0, most);
    let schedule = schedule_of_moves(random, moves);
    let room = some_room(random, log_length(&schedule));
    let (buffer, offset) = embedded(random, &schedule);
    check(tally, random, &buffer[offset..offset + schedule.len()], room);
}

fn long_walk(tally: &mut Tally, random: &mut Random) {
    let moves = random.between(200, 2_000);
    let schedule = schedule_of_moves(random, moves);
    let room = some_room(random, log_length(&schedule));
    check(tally, random, &schedule, room);
}

fn damaged_walk(tally: &mut Tally, random: &mut Random) {
    let moves = random.between(0, 60);
    let schedule = schedule_of_moves(random, moves);
    let length = log_length(&schedule);
    let schedule = damaged(random, &schedule);
    let room = if random.chance(1, 3) { random.below(length + 1) } else { length + 20 };
    let (buffer, offset) = embedded(random, &schedule);
    check(tally, random, &buffer[offset..offset + schedule.len()], room);
}

/// The bytes behind the cut stay in the buffer, so reading on would be seen.
fn cut_at_every_byte(tally: &mut Tally, random: &mut Random) {
    let moves = random.between(1, 40);
    let mut schedule = schedule_of_moves(random, moves);
    if random.chance(1, 3) {
        schedule = damaged(random, &schedule);
    }
    let room = log_length(&schedule).max(60);
    for length in 0..=schedule.len() {
        check(tally, random, &schedule[..length], room);
    }
}

fn every_room(tally: &mut Tally, random: &mut Random) {
    let moves = random.between(0, 60);
    let schedule = schedule_of_moves(random, moves);
    let length = log_length(&schedule);
    for room in length.saturating_sub(30)..=length + 30 {
        check(tally, random, &schedule, room);
    }
}

/// Sound fields of schedules, without regard to where the machine stands.
fn fields_at_random(tally: &mut Tally, random: &mut Random) {
    let mut schedule = Vec::new();
    if !random.chance(1, 20) {
        push_value(&mut schedule, INITIAL, random.value());
    }
    for _ in 0..random.between(0, 20) {
        let next = match random.below(12) {
            0 | 1 => Move::WriterStart(random.value()),
            2..=5 => Move::WriterStep,
            6 => Move::WriterFlicker(random.pick(&[0, 1, 1, 2, 255])),
            7 => Move::ReaderFlicker(random.pick(&[0, 1, 1, 2, 255])),
            _ => Move::ReaderStep,
        };
        push_move(&mut schedule, next);
    }
    let room = random.below(100);
    check(tally, random, &schedule, room);
}

fn bytes_at_random(tally: &mut Tally, random: &mut Random) {
    let length = random.below(24);
    let mut schedule = random.bytes(length);
    if random.chance(1, 2) {
        schedule.iter_mut().for_each(|byte| *byte %= 12);
    }
    check(tally, random, &schedule, 40);
}

/// Schedules around 32,768 bytes: allowed, with the last field refused or cut,
/// and too long by one byte or by many.
fn at_the_limit(tally: &mut Tally, random: &mut Random) {
    let limit = Kind::Schedule.limit();
    let bytes = limit - random.below(3);
    let mut schedule = schedule_of_bytes(random, bytes);
    let length = log_length(&schedule);
    let room = length + random.below(3) - 1;
    check(tally, random, &schedule, room);
    for cut in 1..=8 {
        check(tally, random, &schedule[..schedule.len() - cut], room);
    }
    schedule.extend_from_slice(&[READER_STEP, 0, 0]);
    check(tally, random, &schedule, room + 7);
    for tag in [WRITER_FLICKER, READER_FLICKER, WRITER_STEP, INITIAL] {
        let damaged = schedule.len() - random.pick(&[3, 4, 6, 7]);
        schedule[damaged] = tag;
        check(tally, random, &schedule[..bytes], room);
    }
    let rest = random.bytes(65_536 - schedule.len());
    schedule.extend_from_slice(&rest);
    for length in [limit, limit + 1, limit + 2, 40_000, 65_535, 65_536] {
        let room = random.pick(&[0, 7, 100]);
        check(tally, random, &schedule[..length], room);
    }
}
