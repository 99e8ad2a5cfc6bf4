//! What the random cases reached, and the floors below which the comparison
//! would say too little and fails.

use peer::machine::{Move, State};

/// The floor for whatever can be reached at all.
const FLOOR: u64 = 1_000;

const MOVE_REFUSALS: [usize; 4] = [9, 10, 6, 12];
const SCHEDULE_REFUSALS: [usize; 8] = [1, 2, 3, 4, 5, 6, 7, 8];
const LOG_REFUSALS: [usize; 6] = [1, 2, 3, 4, 7, 11];
const FLICKER_PLACES: [u32; 4] = [21, 24, 26, 41];

/// Counts by answer, 0 to 12.
pub type Answers = [u64; 13];

/// Counts by location, 20 to 44, with the index that `at` gives.
type ByLocation = [u64; 25];

fn at(location: u32) -> usize {
    location as usize - 20
}

#[derive(Default)]
pub struct Coverage {
    pub move_answers: Answers,
    pub schedule_answers: Answers,
    pub log_answers: Answers,
    /// Moves accepted one by one, and moves made in allowed schedules.
    pub single_moves: Moves,
    pub run_moves: Moves,
    /// Well-formed logs by verdict.
    pub verdicts: [u64; 2],
    /// Logs whose first failed read is not their first read.
    pub late_failures: u64,
    /// Logs with an overlapped read.
    pub overlapped: u64,
    /// Logs with a write open at their end.
    pub open_writes: u64,
    /// Small logs judged by trying every order.
    pub brute: u64,
}

/// Moves by the location where they were made, and finished operations.
#[derive(Default, Clone)]
pub struct Moves {
    pub steps_at: ByLocation,
    pub flickers_at: ByLocation,
    /// Finished writes and reads by the number of their steps.
    pub writes_of: [u64; 9],
    pub reads_of: [u64; 6],
    /// Reads finished with the writer at 21, 24 or 26, the writer having flickered during the read.
    pub reads_in_flicker_at: ByLocation,
    write_steps: usize,
    read_steps: usize,
    flickered_in_read: bool,
}

impl Moves {
    /// Notes a move that was made in the given state.
    pub fn note(&mut self, before: &State, the_move: Move) {
        let State { q, r, .. } = *before;
        match the_move {
            Move::WriterStart(_) | Move::WriterStep => {
                self.steps_at[at(q)] += 1;
                self.write_steps = if q == 20 { 1 } else { self.write_steps + 1 };
                if q == 27 {
                    self.writes_of[self.write_steps.min(8)] += 1;
                }
            }
            Move::ReaderStep => {
                self.steps_at[at(r)] += 1;
                self.read_steps = if r == 40 { 1 } else { self.read_steps + 1 };
                if r == 40 {
                    self.flickered_in_read = false;
                }
                if r == 44 {
                    self.reads_of[self.read_steps.min(5)] += 1;
                    if self.flickered_in_read && FLICKER_PLACES.contains(&q) {
                        self.reads_in_flicker_at[at(q)] += 1;
                    }
                }
            }
            Move::WriterFlicker(_) => {
                self.flickers_at[at(q)] += 1;
                self.flickered_in_read = true;
            }
            Move::ReaderFlicker(_) => self.flickers_at[at(r)] += 1,
        }
    }

    fn add(&mut self, other: &Moves) {
        let pairs = [
            (&mut self.steps_at[..], &other.steps_at[..]),
            (&mut self.flickers_at[..], &other.flickers_at[..]),
            (&mut self.writes_of[..], &other.writes_of[..]),
            (&mut self.reads_of[..], &other.reads_of[..]),
            (&mut self.reads_in_flicker_at[..], &other.reads_in_flicker_at[..]),
        ];
        for (to, from) in pairs {
            to.iter_mut().zip(from).for_each(|(count, more)| *count += more);
        }
    }
}

impl Coverage {
    pub fn add_run(&mut self, moves: &Moves) {
        self.run_moves.add(moves);
    }

    /// Prints every count with its floor; gives back the names of those below.
    pub fn report(&self) -> Vec<String> {
        let mut report = Report::default();
        report.refusals("single moves", &self.move_answers, &MOVE_REFUSALS);
        report.refusals("schedules", &self.schedule_answers, &SCHEDULE_REFUSALS);
        report.refusals("logs", &self.log_answers, &LOG_REFUSALS);
        report.share(
            "accepted schedules",
            self.schedule_answers[0],
            total(&self.schedule_answers),
            3,
        );
        report.share("accepted logs", self.log_answers[0], total(&self.log_answers), 3);
        for (name, moves) in [("single moves", &self.single_moves), ("runs", &self.run_moves)] {
            report.locations(name, moves);
        }
        report.operations(&self.run_moves);
        let well_formed = self.verdicts[0] + self.verdicts[1];
        report.share("well-formed logs not atomic", self.verdicts[0], well_formed, 5);
        report.share("well-formed logs atomic", self.verdicts[1], well_formed, 5);
        report.floor("logs with first above 1", self.late_failures, FLOOR);
        report.floor("logs with an overlapped read", self.overlapped, FLOOR);
        report.floor("logs with an open write", self.open_writes, FLOOR);
        report.floor("small logs judged by every order", self.brute, FLOOR);
        report.below
    }
}

fn total(answers: &Answers) -> u64 {
    answers.iter().sum()
}

#[derive(Default)]
struct Report {
    below: Vec<String>,
}

impl Report {
    fn floor(&mut self, name: &str, count: u64, floor: u64) {
        println!("{name}: {count} (at least {floor})");
        if count < floor {
            self.below.push(name.to_string());
        }
    }

    /// At least one part in so many of the whole.
    fn share(&mut self, name: &str, part: u64, whole: u64, one_in: u64) {
        let percent = 100.0 * part as f64 / whole.max(1) as f64;
        println!("{name}: {part} of {whole}, {percent:.1} % (at least one in {one_in})");
        if part * one_in < whole || whole == 0 {
            self.below.push(name.to_string());
        }
    }

    fn refusals(&mut self, name: &str, answers: &Answers, possible: &[usize]) {
        println!("{name}: {} accepted", answers[0]);
        for &number in possible {
            self.floor(&format!("{name} refused {number}"), answers[number], FLOOR);
        }
    }

    fn locations(&mut self, name: &str, moves: &Moves) {
        for location in (20..=27).chain(40..=44) {
            self.floor(
                &format!("{name}, steps at {location}"),
                moves.steps_at[at(location)],
                FLOOR,
            );
        }
        for place in FLICKER_PLACES {
            let count = moves.flickers_at[at(place)];
            self.floor(&format!("{name}, flickers at {place}"), count, FLOOR);
        }
    }

    fn operations(&mut self, moves: &Moves) {
        for steps in [4, 7, 8] {
            self.floor(&format!("writes of {steps} steps"), moves.writes_of[steps], FLOOR);
        }
        for steps in [2, 5] {
            self.floor(&format!("reads of {steps} steps"), moves.reads_of[steps], FLOOR);
        }
        for place in [21, 24, 26] {
            let count = moves.reads_in_flicker_at[at(place)];
            self.floor(&format!("reads during a flicker at {place}"), count, FLOOR);
        }
    }
}
