//! Random well-formed logs. The values of reads are drawn from the writes that
//! may still be seen, or from anywhere, so that both verdicts come about.

use peer::files::*;
use peer::random::Random;

use crate::walk::Values;

/// How events are chosen; chances out of 16 but for `stray`.
struct Manner {
    writer: usize,
    same_party_again: usize,
    /// One read in so many returns any value; never if 0.
    stray: usize,
    /// Reads prefer the newest write they may see rather than any.
    newest: bool,
    values: Values,
}

pub struct LogMaker {
    pub log: Vec<u8>,
    manner: Manner,
    writer_is_next: bool,
    /// The values written, the initial one first.
    written: Vec<u32>,
    write_open: bool,
    read_open: bool,
    /// The earliest write that the open read, or the next one, may have seen.
    earliest: usize,
}

impl LogMaker {
    pub fn random(random: &mut Random) -> LogMaker {
        let manner = Manner {
            writer: random.between(2, 14),
            same_party_again: random.pick(&[0, 0, 4, 12, 15]),
            stray: random.pick(&[0, 0, 2, 4, 8, 64]),
            newest: random.chance(1, 4),
            values: Values::random(random),
        };
        let initial = manner.values.draw(random);
        let mut log = Vec::new();
        push_value(&mut log, INITIAL, initial);
        LogMaker {
            log,
            manner,
            writer_is_next: false,
            written: vec![initial],
            write_open: false,
            read_open: false,
            earliest: 0,
        }
    }

    pub fn add_event(&mut self, random: &mut Random) {
        if !random.chance(self.manner.same_party_again, 16) {
            self.writer_is_next = random.chance(self.manner.writer, 16);
        }
        match (self.writer_is_next, self.write_open, self.read_open) {
            (true, false, _) => self.begin_write(random),
            (true, true, _) => self.end_write(),
            (false, _, false) => self.begin_read(),
            (false, _, true) => self.end_read(random),
        }
    }

    fn begin_write(&mut self, random: &mut Random) {
        let value = self.manner.values.draw(random);
        push_value(&mut self.log, WRITE_BEGAN, value);
        self.written.push(value);
        self.write_open = true;
    }

    fn end_write(&mut self) {
        push_field(&mut self.log, WRITE_ENDED, &[]);
        self.write_open = false;
    }

    fn begin_read(&mut self) {
        push_field(&mut self.log, READ_BEGAN, &[]);
        let last_ended = self.written.len() - 1 - usize::from(self.write_open);
        self.earliest = self.earliest.max(last_ended);
        self.read_open = true;
    }

    fn end_read(&mut self, random: &mut Random) {
        let value = if self.manner.stray > 0 && random.chance(1, self.manner.stray) {
            match random.below(3) {
                // A write shortly before those that may be seen.
                0 => self.written[self.earliest.saturating_sub(random.between(1, 3))],
                1 => random.value(),
                _ => self.manner.values.draw(random),
            }
        } else {
            let newest = self.written.len() - 1;
            if self.manner.newest {
                self.earliest = newest;
            } else {
                self.earliest = random.between(self.earliest, newest);
            }
            self.written[self.earliest]
        };
        push_value(&mut self.log, READ_ENDED, value);
        self.read_open = false;
    }
}

/// A well-formed log of so many events.
pub fn log_of_events(random: &mut Random, events: usize) -> Vec<u8> {
    let mut maker = LogMaker::random(random);
    for _ in 0..events {
        maker.add_event(random);
    }
    maker.log
}

/// A well-formed log of the most bytes there can be: 65,534, its last write open.
pub fn longest_log(random: &mut Random) -> Vec<u8> {
    let mut maker = LogMaker::random(random);
    while maker.log.len() < 65_500 {
        maker.add_event(random);
    }
    if maker.read_open {
        maker.end_read(random);
    }
    if maker.write_open {
        maker.end_write();
    }
    while maker.log.len() + 17 <= 65_534 {
        maker.begin_read();
        maker.end_read(random);
    }
    maker.begin_write(random);
    maker.log
}
