//! The cases from before A8, when 24, 25 and 28 told of failures in both manners: too_large.txt says which of these answers
//! are 38, 39 and 40 now.

use super::{ListCase, ProgramCase, Source, Want};

/// Lists of calls, and runs of gtsrun, whose models have today's sizes.
pub const CALLS: &str = "earlier_calls.txt";
pub const PROGRAMS: &str = "earlier_programs.txt";

/// The lists of calls of such a file, with today's answers.
pub fn lists(file: &str) -> Vec<ListCase> {
    let mut cases = super::lists(&super::text(file));
    let calls = cases.iter_mut().flat_map(|case| &mut case.calls);
    let mut wants: Vec<&mut Want> = calls.map(|call| &mut call.want).collect();
    for place in places(file) {
        match &mut wants[place] {
            Want::Refused(number) => *number = too_large(*number),
            _ => panic!("{file}: call {place} is not refused"),
        }
    }
    cases
}

/// The runs of gtsrun of such a file, with today's answers.
pub fn programs(file: &str) -> Vec<ProgramCase> {
    let mut cases = super::programs(&super::text(file));
    let outputs = cases.iter_mut().map(|case| &mut case.output);
    let mut lines: Vec<&mut [u8]> = outputs
        .flat_map(|output| output.split_inclusive_mut(|&byte| byte == b'\n'))
        .collect();
    for place in places(file) {
        let line = str::from_utf8(lines[place]).ok();
        let number = line.and_then(|line| line.strip_prefix("no ")?.strip_suffix('\n'));
        let today = format!("no {}\n", too_large(super::number(number)));
        lines[place].copy_from_slice(today.as_bytes());
    }
    cases
}

/// The places in too_large.txt, among all calls of the file or among all lines of its outputs.
fn places(file: &str) -> Vec<usize> {
    let text = super::text("too_large.txt");
    let mut source = Source::new(&text);
    while !source.sees(file) {
        source.lines.next().expect("the file has its line");
    }
    source.list(file)
}

/// Today's number of a failure that is no zero divisor.
fn too_large(number: u8) -> u8 {
    match number {
        24 => 38,
        25 => 39,
        28 => 40,
        _ => panic!("{number} is no failure"),
    }
}
