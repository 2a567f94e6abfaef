//! The stored cases with old files, under cases/old/: the old check's refusals are those of gtswide, and the rewritten files
//! give the old answers, but for the numbers of failures (manners.rs).

use super::{JoinCase, ListCase, ProgramCase, Want};
use crate::calls::{Engine, Join};
use crate::program::{gtswide, rewritten};

/// Lists of calls.
pub const CALL_FILES: [&str; 3] = [
    "old/calls.txt",
    "old/earlier_calls.txt",
    "old/joined_calls.txt",
];

/// Runs of gtsrun.
pub const PROGRAM_FILES: [&str; 2] = ["old/programs.txt", "old/earlier_programs.txt"];

/// The bytes of an old file that was accepted, in the new layout: a byte of 0 after each of its first four.
pub fn widened(old: &[u8]) -> Vec<u8> {
    let (sizes, rest) = old.split_at(4);
    let sizes = sizes.iter().flat_map(|&size| [size, 0]);
    sizes.chain(rest.iter().copied()).collect()
}

/// The number by which an old file was refused, if this answer to a call with it tells one.
pub fn refusal_of_file(answer: u8) -> Option<u8> {
    (1..=8).contains(&answer).then_some(answer)
}

/// The file that an implementation writes for an old one, or none if it is refused; in words what is wrong, if the old check
/// did not refuse it likewise.
pub fn rewritten_file(
    engine: &Engine,
    old: &[u8],
    refused: Option<u8>,
) -> Result<Option<Vec<u8>>, String> {
    let found = rewritten(engine, old);
    let (text, file) = match refused {
        Some(number) => (format!("no {number}\n").into_bytes(), Err(number)),
        None => (widened(old), Ok(widened(old))),
    };
    if found != file {
        let answer = found.err().unwrap_or(0);
        return Err(format!("rewritten: {answer}, {refused:?} is stored"));
    }
    if gtswide(engine, old) != text {
        return Err("gtswide prints another text".into());
    }
    Ok(found.ok())
}

impl ListCase {
    /// The number by which the check refuses the model, if it does: that of every call.
    pub fn refused(&self) -> Option<u8> {
        match self.calls.first()?.want {
            Want::Refused(number) => refusal_of_file(number),
            _ => None,
        }
    }
}

impl ProgramCase {
    /// The number by which the check refuses the model, if it does.
    pub fn refused(&self) -> Option<u8> {
        let output = str::from_utf8(&self.output).ok()?;
        let number = output.strip_prefix("no ")?.strip_suffix('\n')?;
        refusal_of_file(number.parse().ok()?)
    }

    /// Without the lines of `f` and 4 or 5 digits, which were no commands and changed nothing; gives how many they were.
    pub fn drop_long_fires(&mut self) -> usize {
        let is_end = |&byte: &u8| byte == b'\n';
        let mut answers = self.output.split_inclusive(is_end);
        let mut output = answers.next().unwrap_or_default().to_vec();
        let (mut input, mut dropped) = (Vec::new(), 0);
        for (line, answer) in self.input.split_inclusive(is_end).zip(answers) {
            if is_long_fire(line) {
                assert_eq!(answer, b"no 13\n");
                dropped += 1;
            } else {
                input.extend_from_slice(line);
                output.extend_from_slice(answer);
            }
        }
        (self.input, self.output) = (input, output);
        dropped
    }
}

fn is_long_fire(line: &[u8]) -> bool {
    let line = line.strip_suffix(b"\n").unwrap_or(line);
    match line.strip_prefix(b"f ") {
        Some(digits) => matches!(digits.len(), 4 | 5) && digits.iter().all(u8::is_ascii_digit),
        None => false,
    }
}

impl JoinCase {
    /// What is lent to the same join in the rewritten file, whose new model is as much longer as that file is.
    pub fn lent_wide(&self) -> Join {
        let Join {
            mandatory,
            optional,
            out,
            length,
        } = &self.lent;
        let filled = out.cells().first().copied().unwrap_or(0);
        let out = vec![filled; out.cells().len() + 4];
        Join::new(mandatory.cells(), optional.cells(), &out, length.get())
    }
}
