//! The count of cases and differences, and the printing of a difference.

use crate::coverage::Coverage;

/// More differences than these are counted in a phase but not printed.
const PRINTED: u64 = 2;

#[derive(Default)]
pub struct Tally {
    pub cases: u64,
    pub differences: u64,
    pub coverage: Coverage,
    phase: String,
    cases_before: u64,
    differences_before: u64,
}

impl Tally {
    pub fn begin_phase(&mut self, name: &str) {
        self.phase = name.to_string();
        self.cases_before = self.cases;
        self.differences_before = self.differences;
    }

    pub fn end_phase(&self) {
        let cases = self.cases - self.cases_before;
        let differences = self.differences - self.differences_before;
        println!("{}: {cases} cases, {differences} differences", self.phase);
    }

    /// Prints a difference: what was tried, then the case and the answers, a
    /// line for each. The case has been counted already.
    pub fn difference(&mut self, what: &str, lines: &[(&str, String)]) {
        self.differences += 1;
        if self.differences - self.differences_before > PRINTED {
            return;
        }
        let case = self.cases - self.cases_before;
        println!("DIFFERENCE: {what}, case {case} of the phase \"{}\"", self.phase);
        for (name, text) in lines {
            println!("  {name}: {text}");
        }
    }
}

pub fn hex(bytes: &[u8]) -> String {
    bytes.iter().map(|byte| format!("{byte:02x}")).collect()
}

pub fn hex_words(words: &[u32]) -> String {
    let words: Vec<String> = words.iter().map(|word| format!("{word:x}")).collect();
    words.join(" ")
}
