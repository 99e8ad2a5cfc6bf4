//! Random allowed moves: a walk through the machine in a manner drawn once,
//! and the schedule that says the same.

use peer::files::*;
use peer::machine::{Move, State};
use peer::random::Random;

/// Where values come from; few of them, so that they repeat.
#[derive(Clone, Copy)]
pub enum Values {
    AllEqual(u32),
    Few(usize),
    Any,
}

impl Values {
    pub fn random(random: &mut Random) -> Values {
        match random.below(8) {
            0 => Values::AllEqual(random.value()),
            1 => Values::Any,
            _ => Values::Few(random.between(2, 5)),
        }
    }

    pub fn draw(self, random: &mut Random) -> u32 {
        match self {
            Values::AllEqual(value) => value,
            Values::Few(number) => random.below(number) as u32,
            Values::Any => random.value(),
        }
    }
}

/// How moves are chosen; the numbers are chances out of 16.
struct Manner {
    writer: usize,
    same_party_again: usize,
    flicker: usize,
    values: Values,
}

impl Manner {
    fn random(random: &mut Random) -> Manner {
        Manner {
            writer: random.between(2, 14),
            same_party_again: random.pick(&[0, 0, 4, 12, 14]),
            flicker: random.pick(&[0, 2, 8, 8, 13]),
            values: Values::random(random),
        }
    }
}

pub struct Walk {
    pub state: State,
    manner: Manner,
    writer_is_next: bool,
}

impl Walk {
    pub fn random(random: &mut Random) -> Walk {
        let manner = Manner::random(random);
        let initial = manner.values.draw(random);
        Walk { state: State::initial(initial), manner, writer_is_next: false }
    }

    /// A move that is allowed in the present state.
    pub fn choose(&mut self, random: &mut Random) -> Move {
        if !random.chance(self.manner.same_party_again, 16) {
            self.writer_is_next = random.chance(self.manner.writer, 16);
        }
        let flicker = random.chance(self.manner.flicker, 16);
        match (self.writer_is_next, self.state.q, self.state.r) {
            (true, 20, _) => Move::WriterStart(self.manner.values.draw(random)),
            (true, 21 | 24 | 26, _) if flicker => Move::WriterFlicker(random.bit()),
            (true, ..) => Move::WriterStep,
            (false, _, 41) if flicker => Move::ReaderFlicker(random.bit()),
            (false, ..) => Move::ReaderStep,
        }
    }

    pub fn make(&mut self, the_move: Move) {
        self.state = self.state.make(the_move).expect("a move chosen as allowed");
    }

    fn take(&mut self, schedule: &mut Vec<u8>, the_move: Move) {
        self.make(the_move);
        push_move(schedule, the_move);
    }

    fn begin(&self) -> Vec<u8> {
        let mut schedule = Vec::new();
        push_value(&mut schedule, INITIAL, self.state.reader_value);
        schedule
    }
}

pub fn push_move(schedule: &mut Vec<u8>, the_move: Move) {
    match the_move {
        Move::WriterStart(value) => push_value(schedule, WRITER_START, value),
        Move::WriterStep => push_field(schedule, WRITER_STEP, &[]),
        Move::WriterFlicker(bit) => push_field(schedule, WRITER_FLICKER, &[bit as u8]),
        Move::ReaderStep => push_field(schedule, READER_STEP, &[]),
        Move::ReaderFlicker(bit) => push_field(schedule, READER_FLICKER, &[bit as u8]),
    }
}

/// An allowed schedule of so many moves.
pub fn schedule_of_moves(random: &mut Random, moves: usize) -> Vec<u8> {
    let mut walk = Walk::random(random);
    let mut schedule = walk.begin();
    for _ in 0..moves {
        let next = walk.choose(random);
        walk.take(&mut schedule, next);
    }
    schedule
}

/// An allowed schedule of exactly so many bytes, at least 100.
pub fn schedule_of_bytes(random: &mut Random, bytes: usize) -> Vec<u8> {
    let mut walk = Walk::random(random);
    let mut schedule = walk.begin();
    while schedule.len() + 50 < bytes {
        let next = walk.choose(random);
        walk.take(&mut schedule, next);
    }
    // The writer goes to 21 (at most 7 steps and a start: 28 bytes); there any
    // number of flickers of 4 bytes fits, and reader steps of 3 make up the rest.
    while walk.state.q != 20 {
        walk.take(&mut schedule, Move::WriterStep);
    }
    walk.take(&mut schedule, Move::WriterStart(random.value()));
    while (bytes - schedule.len()) % 3 != 0 {
        walk.take(&mut schedule, Move::WriterFlicker(random.bit()));
    }
    while schedule.len() < bytes {
        walk.take(&mut schedule, Move::ReaderStep);
    }
    schedule
}
