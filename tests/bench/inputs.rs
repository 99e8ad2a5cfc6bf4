//! The inputs of the measurement: logs and schedules of several shapes, each
//! filled up to a size.

use peer::files::*;
use peer::machine::{Move, State};
use peer::random::Random;

pub struct Shape {
    pub name: &'static str,
    pub make: fn(usize) -> Vec<u8>,
}

pub const LOGS: [Shape; 10] = [
    Shape { name: "only reads", make: only_reads },
    Shape { name: "only writes", make: only_writes },
    Shape { name: "writes and reads in turn", make: in_turn },
    Shape { name: "all values equal, interleaved", make: all_equal },
    Shape { name: "reads match the last write possible", make: last_possible },
    Shape { name: "one read over all writes", make: one_read },
    Shape { name: "overlapping, two values flapping", make: flapping },
    Shape { name: "reads in one open write", make: in_an_open_write },
    Shape { name: "fails at the first read", make: fails_at_once },
    Shape { name: "log of a random run", make: log_of_a_run },
];

pub const SCHEDULES: [Shape; 6] = [
    Shape { name: "long writes and reads in turn", make: long_operations },
    Shape { name: "short writes", make: short_writes },
    Shape { name: "short reads", make: short_reads },
    Shape { name: "flickers of the writer", make: writer_flickers },
    Shape { name: "flickers of the reader", make: reader_flickers },
    Shape { name: "random walk", make: random_walk },
];

/// A file that begins with the initial value 0 and repeats a piece, made anew
/// each time, as often as whole pieces fit.
fn filled(size: usize, mut piece: impl FnMut(&mut Vec<u8>)) -> Vec<u8> {
    let mut file = Vec::new();
    push_value(&mut file, INITIAL, 0);
    loop {
        let length = file.len();
        piece(&mut file);
        if file.len() > size {
            file.truncate(length);
            return file;
        }
    }
}

fn write(log: &mut Vec<u8>, value: u32) {
    push_value(log, WRITE_BEGAN, value);
    push_field(log, WRITE_ENDED, &[]);
}

fn read(log: &mut Vec<u8>, value: u32) {
    push_field(log, READ_BEGAN, &[]);
    push_value(log, READ_ENDED, value);
}

fn only_reads(size: usize) -> Vec<u8> {
    filled(size, |log| read(log, 0))
}

fn only_writes(size: usize) -> Vec<u8> {
    let mut value = 0;
    filled(size, |log| {
        value += 1;
        write(log, value);
    })
}

fn in_turn(size: usize) -> Vec<u8> {
    let mut value = 0;
    filled(size, |log| {
        value += 1;
        write(log, value);
        read(log, value);
    })
}

fn all_equal(size: usize) -> Vec<u8> {
    let mut random = Random::new(1);
    let (mut write_open, mut read_open) = (false, false);
    filled(size, |log| {
        let of_the_writer = random.bit() == 1;
        match (of_the_writer, write_open, read_open) {
            (true, false, _) => push_value(log, WRITE_BEGAN, 0),
            (true, true, _) => push_field(log, WRITE_ENDED, &[]),
            (false, _, false) => push_field(log, READ_BEGAN, &[]),
            (false, _, true) => push_value(log, READ_ENDED, 0),
        }
        if of_the_writer {
            write_open = !write_open;
        } else {
            read_open = !read_open;
        }
    })
}

/// Each read goes over twenty writes and returns the one still open.
fn last_possible(size: usize) -> Vec<u8> {
    let mut value = 0;
    filled(size, |log| {
        push_field(log, READ_BEGAN, &[]);
        for _ in 0..20 {
            value += 1;
            write(log, value);
        }
        value += 1;
        push_value(log, WRITE_BEGAN, value);
        push_value(log, READ_ENDED, value);
        push_field(log, WRITE_ENDED, &[]);
    })
}

fn one_read(size: usize) -> Vec<u8> {
    let mut value = 0;
    let mut begun = false;
    let mut log = filled(size - 7, |log| {
        if !begun {
            push_field(log, READ_BEGAN, &[]);
            begun = true;
        }
        value += 1;
        write(log, value);
    });
    push_value(&mut log, READ_ENDED, value - 1);
    log
}

/// Writes of 1 and 0 in turn; each read sees the older, then the newer of two.
fn flapping(size: usize) -> Vec<u8> {
    filled(size, |log| {
        push_value(log, WRITE_BEGAN, 1);
        push_field(log, READ_BEGAN, &[]);
        push_field(log, WRITE_ENDED, &[]);
        push_value(log, WRITE_BEGAN, 0);
        push_value(log, READ_ENDED, 1);
        push_field(log, READ_BEGAN, &[]);
        push_field(log, WRITE_ENDED, &[]);
        push_value(log, READ_ENDED, 0);
    })
}

/// The older value in all reads but the last thousand bytes, then the open write's.
fn in_an_open_write(size: usize) -> Vec<u8> {
    let mut begun = false;
    filled(size, |log| {
        if !begun {
            push_value(log, WRITE_BEGAN, 1);
            begun = true;
        }
        let value = u32::from(log.len() + 1_000 > size);
        read(log, value);
    })
}

fn fails_at_once(size: usize) -> Vec<u8> {
    let mut value = 0;
    filled(size, |log| {
        value += 1;
        read(log, value);
        write(log, value);
    })
}

fn log_of_a_run(size: usize) -> Vec<u8> {
    let mut walk = Walk::new(2);
    filled(size, |log| {
        let (before, the_move) = walk.next();
        match (the_move, before.q, before.r) {
            (Move::WriterStart(value), ..) => push_value(log, WRITE_BEGAN, value),
            (Move::WriterStep, 27, _) => push_field(log, WRITE_ENDED, &[]),
            (Move::ReaderStep, _, 40) => push_field(log, READ_BEGAN, &[]),
            (Move::ReaderStep, _, 44) => push_value(log, READ_ENDED, before.reader_value),
            _ => (),
        }
    })
}

fn steps(schedule: &mut Vec<u8>, tag: u8, number: usize) {
    for _ in 0..number {
        push_field(schedule, tag, &[]);
    }
}

/// Reads of five steps and, after the first, writes of eight.
fn long_operations(size: usize) -> Vec<u8> {
    let mut value = 0;
    filled(size, |schedule| {
        value += 1;
        steps(schedule, READER_STEP, 5);
        push_value(schedule, WRITER_START, value);
        steps(schedule, WRITER_STEP, 7);
    })
}

fn short_writes(size: usize) -> Vec<u8> {
    let mut value = 0;
    filled(size, |schedule| {
        value += 1;
        push_value(schedule, WRITER_START, value);
        steps(schedule, WRITER_STEP, 3);
    })
}

/// The first read has five steps; all others two.
fn short_reads(size: usize) -> Vec<u8> {
    filled(size, |schedule| steps(schedule, READER_STEP, 1))
}

fn writer_flickers(size: usize) -> Vec<u8> {
    let mut value = 0;
    filled(size, |schedule| {
        value += 1;
        push_value(schedule, WRITER_START, value);
        for bit in [1, 0, 1, 0, 1, 0, 1, 0] {
            push_field(schedule, WRITER_FLICKER, &[bit]);
        }
        steps(schedule, WRITER_STEP, 3);
    })
}

/// The reader starts to 41 and stays there.
fn reader_flickers(size: usize) -> Vec<u8> {
    let mut bit = 0;
    let mut begun = false;
    filled(size, |schedule| {
        if !begun {
            steps(schedule, READER_STEP, 1);
            begun = true;
        }
        push_field(schedule, READER_FLICKER, &[bit]);
        bit = 1 - bit;
    })
}

fn random_walk(size: usize) -> Vec<u8> {
    let mut walk = Walk::new(3);
    filled(size, |schedule| match walk.next().1 {
        Move::WriterStart(value) => push_value(schedule, WRITER_START, value),
        Move::WriterStep => push_field(schedule, WRITER_STEP, &[]),
        Move::WriterFlicker(bit) => push_field(schedule, WRITER_FLICKER, &[bit as u8]),
        Move::ReaderStep => push_field(schedule, READER_STEP, &[]),
        Move::ReaderFlicker(bit) => push_field(schedule, READER_FLICKER, &[bit as u8]),
    })
}

/// A walk through the machine, each party as likely to move as the other.
struct Walk {
    state: State,
    random: Random,
}

impl Walk {
    fn new(seed: u64) -> Walk {
        Walk { state: State::initial(0), random: Random::new(seed) }
    }

    /// Makes a move; gives back the state before it, and the move.
    fn next(&mut self) -> (State, Move) {
        let before = self.state;
        let flickers = self.random.chance(1, 4);
        let the_move = match (self.random.bit(), before.q, before.r) {
            (0, 20, _) => Move::WriterStart(self.random.below(4) as u32),
            (0, 21 | 24 | 26, _) if flickers => Move::WriterFlicker(self.random.bit()),
            (0, ..) => Move::WriterStep,
            (_, _, 41) if flickers => Move::ReaderFlicker(self.random.bit()),
            _ => Move::ReaderStep,
        };
        // Numbers do not matter here; starting them over lets long walks go on.
        self.state.writer_number = 1;
        self.state = self.state.make(the_move).expect("an allowed move");
        (before, the_move)
    }
}
