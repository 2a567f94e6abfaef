//! How many calls were compared, what they answered, and what differed.

use bench::calls::{Store, FIRST_OUTSIDE, TABLE};

/// How many differences are printed in full.
const PRINTED: usize = 10;

/// The columns of the calls on texts, of joins, of rewritings and of the calls on logs, after those of the table.
pub const TEXT: usize = TABLE.len();
pub const JOIN: usize = TABLE.len() + 1;
pub const REWRITE: usize = TABLE.len() + 2;
pub const WINDOWS: usize = TABLE.len() + 3;
const COLUMNS: usize = TABLE.len() + 4;

/// The answers are below this.
const ANSWERS: usize = 42;

pub struct Tally {
    pub calls: usize,
    pub differ: usize,
    /// For each row of the table, then for texts, joins, rewritings and logs, how often each number was answered.
    answers: [[usize; ANSWERS]; COLUMNS],
    /// How often `first_outside` found a variable.
    outside: usize,
    /// Joins that were accepted in a model and in its twin.
    pub joined: usize,
    /// Calls on one run under a model and under the one that a join wrote of it: those that had to be equal, and those
    /// that 10 or 20 refused under one of them.
    pub beside: usize,
    pub apart: usize,
}

impl Tally {
    pub fn new() -> Self {
        Tally {
            calls: 0,
            differ: 0,
            answers: [[0; ANSWERS]; COLUMNS],
            outside: 0,
            joined: 0,
            beside: 0,
            apart: 0,
        }
    }

    pub fn count(&mut self, column: usize, answer: u8) {
        self.calls += 1;
        if let Some(count) = self.answers[column].get_mut(usize::from(answer)) {
            *count += 1;
        }
    }

    /// Counts a call of the table, after which the results are these.
    pub fn count_call(&mut self, row: usize, answer: u8, results: &Store) {
        self.count(row, answer);
        if row == FIRST_OUTSIDE && answer == 0 && results.found.get() == 1 {
            self.outside += 1;
        }
    }

    /// Reports what is wrong, if anything is.
    pub fn report(&mut self, what: &str, wrong: &[String]) {
        if wrong.is_empty() {
            return;
        }
        self.differ += 1;
        if self.differ <= PRINTED {
            println!("DIFFERS {what}: {}", wrong.join("; "));
        }
    }

    pub fn print(&self) {
        print!("| answer |");
        for row in &TABLE {
            print!(" {} |", row.name);
        }
        println!(
            " text | join | rewrite | windows |\n|{}",
            "---|".repeat(COLUMNS + 1)
        );
        for answer in 0..ANSWERS {
            if self.answers.iter().all(|column| column[answer] == 0) {
                continue;
            }
            print!("| {answer} |");
            for column in &self.answers {
                print!(" {} |", column[answer]);
            }
            println!();
        }
        let within = self.answers[FIRST_OUTSIDE][0] - self.outside;
        println!("\nfirst_outside: {} outside, {within} within", self.outside);
        println!(
            "joins: {} accepted with their twins; {} calls as before beside the old model, {} refused by 10 or 20",
            self.joined, self.beside, self.apart
        );
    }
}
