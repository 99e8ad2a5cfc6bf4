//! Single moves compared: the number given back and all 25 numbers of the
//! state, on reachable, perturbed and impossible states.

use peer::machine::{Move, State};
use peer::random::Random;

use crate::library;
use crate::tally::{hex_words, Tally};
use crate::walk::Walk;

/// Which of the 25 numbers are bits, and which may not go above 65,535.
const BITS: [usize; 8] = [8, 9, 10, 11, 13, 14, 19, 20];
const NUMBERS: [usize; 9] = [4, 5, 6, 7, 15, 16, 22, 23, 24];
const Q: usize = 12;
const R: usize = 18;
const WRITER_NUMBER: usize = 16;

/// Numbers at the edges of some range, also after narrowing to 8 or 16 bits.
#[rustfmt::skip]
const EDGES: [u32; 24] = [
    0, 1, 2, 19, 20, 23, 27, 28, 39, 40, 43, 44, 45, 255, 256, 257, 276, 299,
    65_534, 65_535, 65_536, 65_537, 1 << 31, u32::MAX,
];

fn check(tally: &mut Tally, before: &[u32; 25], the_move: Move) -> u32 {
    let state = State::from_words(before);
    let (number, after) = match state.make(the_move) {
        Ok(next) => (0, next.words()),
        Err(number) => (number, *before),
    };
    let mut theirs = *before;
    let their_number = library::make(&mut theirs, the_move);

    tally.cases += 1;
    if their_number != number || theirs != after {
        let lines = [
            ("state, in hex", hex_words(before)),
            ("move", format!("{the_move:?}")),
            ("second program", format!("{number}, state {}", hex_words(&after))),
            ("library       ", format!("{their_number}, state {}", hex_words(&theirs))),
        ];
        tally.difference("a single move", &lines);
    }
    tally.coverage.move_answers[number as usize] += 1;
    if number == 0 {
        tally.coverage.single_moves.note(&state, the_move);
    }
    number
}

/// Every location of both parties with every setting of the eight bits, and
/// every kind of move with every bit: some random numbers for the rest.
pub fn check_every_control_state(tally: &mut Tally, random: &mut Random) {
    for q in 20..=27 {
        for r in 40..=44 {
            for setting in 0..256 {
                let mut words = in_range(random);
                words[Q] = q;
                words[R] = r;
                for (i, &bit) in BITS.iter().enumerate() {
                    words[bit] = setting >> i & 1;
                }
                check(tally, &words, Move::WriterStart(random.value()));
                check(tally, &words, Move::WriterStep);
                check(tally, &words, Move::ReaderStep);
                for bit in 0..=1 {
                    check(tally, &words, Move::WriterFlicker(bit));
                    check(tally, &words, Move::ReaderFlicker(bit));
                }
            }
        }
    }
}

pub fn check_random(tally: &mut Tally, random: &mut Random, cases: u64) {
    let end = tally.cases + cases;
    while tally.cases < end {
        walk_along(tally, random);
    }
}

/// Follows a walk; at each of its states tries the next move, and now and then
/// any move there, the same on a perturbed state, and a state out of nowhere.
fn walk_along(tally: &mut Tally, random: &mut Random) {
    let mut walk = Walk::random(random);
    // Some walks have their writer's number close to its largest.
    if random.chance(1, 8) {
        walk.state.writer_number = 65_535 - random.below(20) as u32;
    }
    for _ in 0..random.between(1, 300) {
        let next = walk.choose(random);
        let words = walk.state.words();
        let number = check(tally, &words, next);
        match random.below(6) {
            0 => drop(check(tally, &words, any_move(random))),
            1 => {
                let perturbed = perturbed(random, &words);
                check(tally, &perturbed, any_move(random));
            }
            2 => {
                let words = in_range(random);
                check(tally, &words, any_move(random));
            }
            3 => {
                let words = perhaps_clash(random);
                check(tally, &words, any_move(random));
            }
            _ => (),
        }
        if number != 0 {
            return;
        }
        walk.make(next);
    }
}

fn any_move(random: &mut Random) -> Move {
    let bit = match random.below(10) {
        0 => random.pick(&EDGES),
        1 => random.value(),
        _ => random.bit(),
    };
    match random.below(5) {
        0 => Move::WriterStart(random.value()),
        1 => Move::WriterStep,
        2 => Move::WriterFlicker(bit),
        3 => Move::ReaderStep,
        _ => Move::ReaderFlicker(bit),
    }
}

fn perturbed(random: &mut Random, words: &[u32; 25]) -> [u32; 25] {
    let mut words = *words;
    for _ in 0..random.pick(&[1, 1, 1, 2, 3, 25]) {
        let which = random.below(25);
        words[which] = match random.below(6) {
            0 => random.pick(&EDGES),
            1 => random.value(),
            2 => words[which].wrapping_add(1),
            3 => words[which].wrapping_sub(1),
            // The same after narrowing to 8 or to 16 bits.
            4 => words[which].wrapping_add(256),
            _ => words[which].wrapping_add(65_536),
        };
    }
    words
}

/// A state with nothing out of range, but hardly one that a walk would reach.
fn in_range(random: &mut Random) -> [u32; 25] {
    let mut words = [0; 25];
    let largest = random.pick(&[3, 100, 65_535]);
    for word in &mut words {
        *word = random.value();
    }
    for bit in BITS {
        words[bit] = random.bit();
    }
    for number in NUMBERS {
        words[number] = random.between(0, largest) as u32;
    }
    words[Q] = random.between(20, 27) as u32;
    words[R] = random.between(40, 44) as u32;
    if random.chance(1, 8) {
        words[WRITER_NUMBER] = random.pick(&[65_534, 65_535]);
        words[Q] = random.pick(&[20, 20, 21]);
    }
    words
}

/// A state in which the reader is about to read a buffer and the writer, often,
/// to write one; with a number out of range now and then.
fn perhaps_clash(random: &mut Random) -> [u32; 25] {
    let mut words = in_range(random);
    words[Q] = random.pick(&[20, 20, 23, 23, 22]);
    words[R] = 43;
    if random.chance(1, 8) {
        words[random.below(25)] = random.pick(&EDGES);
    }
    words
}
