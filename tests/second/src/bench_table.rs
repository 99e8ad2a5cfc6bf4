//! Document 01's bench table, its numbers written out here by hand and asked
//! of both the second program and the library.

use peer::brute;
use peer::fast_judge;
use peer::files::*;
use peer::machine::Move::{self, ReaderStep, WriterFlicker, WriterStart, WriterStep};
use peer::machine::State;
use peer::run;

use crate::library;
use crate::tally::{hex, hex_words, Tally};
use crate::walk::push_move;

// The numbers of the state that the table speaks of, by their index.
const C0: usize = 10;
const WW: usize = 8;
const Q: usize = 12;
const AW: usize = 13;
const WRITER_START_AT: usize = 15;
const WRITER_NUMBER: usize = 16;
const R: usize = 18;
const BR: usize = 19;
const CR: usize = 20;
const READER_VALUE: usize = 21;
const READER_START: usize = 22;
const READER_NUMBER: usize = 23;

fn expect(
    tally: &mut Tally,
    name: &str,
    case: String,
    right: String,
    second: String,
    library: String,
) {
    tally.cases += 1;
    if second != right || library != right {
        let lines = [
            ("case", case),
            ("document 01   ", right),
            ("second program", second),
            ("library       ", library),
        ];
        tally.difference(name, &lines);
    }
}

/// The moves one after another from the state; its number `which` after them.
fn after(tally: &mut Tally, name: &str, from: State, moves: &[Move], right: &[(usize, u32)]) {
    let mut state = from;
    let mut words = from.words();
    for &the_move in moves {
        state = state.make(the_move).unwrap_or(state);
        library::make(&mut words, the_move);
    }
    for &(which, number) in right {
        let case = format!("{}, then {moves:?}, number {which}", hex_words(&from.words()));
        let second = state.words()[which].to_string();
        expect(tally, name, case, number.to_string(), second, words[which].to_string());
    }
}

/// The number that a single move answers.
fn answers(tally: &mut Tally, name: &str, state: State, the_move: Move, right: u32) {
    let second = state.make(the_move).err().unwrap_or(0);
    let library = library::make(&mut state.words(), the_move);
    let case = format!("{}, {the_move:?}", hex_words(&state.words()));
    expect(tally, name, case, right.to_string(), second.to_string(), library.to_string());
}

/// The answer, place and length of a run into a room of so many bytes, and its log.
fn runs(tally: &mut Tally, name: &str, schedule: &[u8], room: usize, right: [u32; 3], log: &[u8]) {
    let mut ours = vec![0xEE; room];
    let mut theirs = ours.clone();
    let answer = run::run(schedule, &mut ours);
    let ours = format!("{:?} {}", answer.words(), hex(&ours));
    let mut answer = [0; 3];
    library::run(schedule, &mut theirs, &mut answer);
    let theirs = format!("{answer:?} {}", hex(&theirs));
    let mut out = vec![0xEE; room];
    out[..log.len()].copy_from_slice(log);
    expect(tally, name, hex(schedule), format!("{right:?} {}", hex(&out)), ours, theirs);
}

/// Answer, place, atomic, first, writes, reads, overlapped.
fn judged(tally: &mut Tally, name: &str, log: &[u8], right: [u32; 7]) {
    let mut theirs = [0; 7];
    library::judge(log, &mut theirs);
    for ours in [fast_judge::judge(log), brute::judge(log)] {
        let ours = format!("{:?}", ours.words());
        expect(tally, name, hex(log), format!("{right:?}"), ours, format!("{theirs:?}"));
    }
}

fn schedule(initial: u32, moves: &[Move]) -> Vec<u8> {
    let mut schedule = Vec::new();
    push_value(&mut schedule, INITIAL, initial);
    moves.iter().for_each(|&the_move| push_move(&mut schedule, the_move));
    schedule
}

/// A log from its tags, each with its value; fields without a body pass over it.
fn log(fields: &[(u8, u32)]) -> Vec<u8> {
    let mut log = Vec::new();
    for &(tag, value) in fields {
        match tag {
            WRITE_ENDED | READ_BEGAN => push_field(&mut log, tag, &[]),
            _ => push_value(&mut log, tag, value),
        }
    }
    log
}

const READ_9: [(u8, u32); 2] = [(READ_BEGAN, 0), (READ_ENDED, 9)];
const READ_5: [(u8, u32); 2] = [(READ_BEGAN, 0), (READ_ENDED, 5)];
const WRITE_9: [(u8, u32); 2] = [(WRITE_BEGAN, 9), (WRITE_ENDED, 0)];
const FIVE: [(u8, u32); 1] = [(INITIAL, 5)];

pub fn check(tally: &mut Tally) {
    let start = State::initial(5);
    let read = [ReaderStep; 5];
    let p2 = schedule(5, &read);
    let p2_log = log(&[&FIVE[..], &READ_5].concat());

    let p1 = schedule(5, &[]);
    runs(tally, "P1", &p1, 9, [0, 0, 7], &p1);
    judged(tally, "P1", &p1, [0, 0, 1, 0, 0, 0, 0]);

    after(tally, "P2", start, &read, &[(READER_VALUE, 5), (READER_NUMBER, 1), (R, 40)]);
    runs(tally, "P2, output exactly 17", &p2, 17, [0, 0, 17], &p2_log);
    runs(tally, "P2, output one byte short", &p2, 16, [8, 0, 0], &[]);
    judged(tally, "P2", &p2_log, [0, 0, 1, 0, 0, 1, 0]);

    let short_write = [WriterStart(9), WriterStep, WriterStep, WriterStep];
    after(tally, "P3", start, &short_write, &[(Q, 20), (WRITER_START_AT, 1), (WRITER_NUMBER, 2)]);
    let p3 = [&short_write[..], &read].concat();
    after(tally, "P3", start, &p3, &[(READER_VALUE, 9), (READER_START, 2), (READER_NUMBER, 2)]);

    let long_write = [&read[..], &[WriterStart(9)], &[WriterStep; 7]].concat();
    after(tally, "P4", start, &long_write, &[(Q, 20), (AW, 1), (WW, 1)]);
    let p4 = [&long_write[..], &read].concat();
    after(tally, "P4", start, &p4, &[(READER_VALUE, 9), (R, 40)]);

    let p5 = [&read[..], &[WriterStart(9), ReaderStep, ReaderStep]].concat();
    after(tally, "P5", start, &p5, &[(READER_VALUE, 5), (R, 40), (Q, 21)]);

    let p6 = [&[WriterStart(9), WriterFlicker(1)], &read[..]].concat();
    after(tally, "P6", start, &p6, &[(READER_VALUE, 9), (READER_NUMBER, 2), (Q, 21), (R, 40)]);
    let p6 = [&p6[..], &[WriterFlicker(0), ReaderStep, ReaderStep]].concat();
    after(tally, "P6", start, &p6, &[(READER_VALUE, 9), (R, 40), (C0, 0)]);
    let p6_log = log(&[&FIVE[..], &[(WRITE_BEGAN, 9)], &READ_9, &READ_9].concat());
    runs(tally, "P6", &schedule(5, &p6), 40, [0, 0, 34], &p6_log);
    judged(tally, "P6", &p6_log, [0, 0, 1, 0, 0, 2, 0]);

    let p7 = [&FIVE[..], &[(READ_BEGAN, 0), (WRITE_BEGAN, 9), (READ_ENDED, 9)], &READ_5];
    judged(tally, "P7", &log(&p7.concat()), [0, 0, 0, 2, 0, 2, 1]);
    let p8 = [&FIVE[..], &WRITE_9, &[(WRITE_BEGAN, 5)], &READ_9, &READ_5];
    judged(tally, "P8", &log(&p8.concat()), [0, 0, 1, 0, 1, 2, 0]);
    let p9 = [&FIVE[..], &WRITE_9, &READ_5];
    judged(tally, "P9", &log(&p9.concat()), [0, 0, 0, 1, 1, 1, 0]);
    let p10 = [&FIVE[..], &READ_9, &[(WRITE_BEGAN, 9)]];
    judged(tally, "P10", &log(&p10.concat()), [0, 0, 0, 1, 0, 1, 0]);

    runs(tally, "initial then tag 3", &schedule(5, &[WriterStep]), 20, [6, 7, 0], &[]);
    judged(tally, "initial then tag 8", &log(&[FIVE[0], (WRITE_ENDED, 0)]), [11, 7, 0, 0, 0, 0, 0]);
    judged(tally, "no bytes", &[], [4, 0, 0, 0, 0, 0, 0]);
    runs(tally, "no bytes", &[], 5, [4, 0, 0], &[]);

    let at_22 = State { q: 22, ..start };
    answers(tally, "writer flicker at 22", at_22, WriterFlicker(1), 6);
    let clash = State { r: 43, br: 0, cr: 1, ..start };
    after(tally, "the clash", clash, &[], &[(Q, 20), (AW, 0), (C0, 0), (R, 43), (BR, 0), (CR, 1)]);
    for the_move in [WriterStart(9), WriterStep, WriterFlicker(0), ReaderStep] {
        answers(tally, "the clash", clash, the_move, 10);
    }
    let last_but_one = State { writer_number: 65_534, ..start };
    let gone_to_21 = [(Q, 21), (WRITER_NUMBER, 65_535)];
    after(tally, "number 65,534", last_but_one, &[WriterStart(9)], &gone_to_21);
    let last = State { writer_number: 65_535, ..start };
    answers(tally, "number 65,535", last, WriterStart(9), 12);
}
