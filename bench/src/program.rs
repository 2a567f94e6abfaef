//! The programs gtsrun and gtswide as functions, over either implementation.

use std::fmt::Write;

use crate::calls::{Arguments, Call, Engine, Rewriting, Store, CHECK, FIRE, MARKS, START, UNDO};
use crate::reference::Refusal;

/// Places of the history of gtsrun.
const PLACES: usize = 200;

/// Bytes of the longest file that gtswide writes: one of 4,000 nodes.
const REWRITTEN: usize = 20_010;

#[derive(Clone, Copy)]
enum Command {
    Fire(usize),
    Undo,
    Marks,
}

/// `f` space 1 to 5 digits, `u` or `m`.
fn command(line: &[u8]) -> Option<Command> {
    match line {
        b"u" => Some(Command::Undo),
        b"m" => Some(Command::Marks),
        [b'f', b' ', digits @ ..]
            if matches!(digits.len(), 1..=5) && digits.iter().all(u8::is_ascii_digit) =>
        {
            let digit = |number, &digit: &u8| 10 * number + usize::from(digit - b'0');
            Some(Command::Fire(digits.iter().fold(0, digit)))
        }
        _ => None,
    }
}

/// A call through the table of calls.
fn perform(engine: &Engine, model: &[u8], store: &mut Store, row: usize, number: usize) -> u8 {
    let answer = Call { row, number }.perform(engine, model, store);
    assert!(store.intact(), "guard cells were written");
    answer
}

/// A run that was started, of exactly the cells that are needed; or the number of the refusal.
fn started(engine: &Engine, model: &[u8]) -> Result<Store, u8> {
    let accepted = |answer: u8| if answer == 0 { Ok(()) } else { Err(answer) };
    let mut store = Store::new(&[], &[], &[], 0, &[]);
    accepted(perform(engine, model, &mut store, CHECK, 0))?;
    let [states, flows, _, transitions, _] = store.sizes.cells() else {
        unreachable!("a store has five sizes");
    };
    let values = vec![0; (states + flows) as usize];
    let marks = vec![0; *transitions as usize];
    store = Store::new(&values, &marks, &[0; PLACES], 0, &marks);
    accepted(perform(engine, model, &mut store, START, 0))?;
    Ok(store)
}

/// What gtsrun prints for a model file and a standard input. All goes through the table of calls.
pub fn gtsrun(engine: &Engine, model: &[u8], input: &[u8]) -> String {
    let mut output = String::new();
    let mut store = match started(engine, model) {
        Ok(store) => store,
        Err(number) => {
            print(&mut output, "no", [number]);
            return output;
        }
    };
    print_ok(&mut output, &store);

    for line in input.split_inclusive(|&byte| byte == b'\n') {
        let command = command(line.strip_suffix(b"\n").unwrap_or(line));
        let mut call = |row, number| perform(engine, model, &mut store, row, number);
        let answer = match command {
            None => Refusal::NoCommand.number(),
            Some(Command::Fire(transition)) => call(FIRE, transition),
            Some(Command::Undo) => call(UNDO, 0),
            Some(Command::Marks) => call(MARKS, 0),
        };
        match command {
            Some(Command::Fire(_)) if answer == 0 => print_ok(&mut output, &store),
            Some(Command::Undo) if answer == 0 => print(&mut output, "back", store.values.cells()),
            Some(Command::Marks) if answer == 0 => print(&mut output, "m", store.buffer.cells()),
            _ => print(&mut output, "no", [answer]),
        }
    }
    output
}

/// An old file in the new layout, or the number of its refusal.
pub fn rewritten(engine: &Engine, old: &[u8]) -> Result<Vec<u8>, u8> {
    let mut rewriting = Rewriting::new(&[0; REWRITTEN], 0);
    let answer = rewriting.perform(engine, old);
    assert!(rewriting.intact(), "guard cells were written");
    match answer {
        0 => Ok(rewriting.written().to_vec()),
        number => Err(number),
    }
}

/// What gtswide prints for a standard input.
pub fn gtswide(engine: &Engine, input: &[u8]) -> Vec<u8> {
    rewritten(engine, input).unwrap_or_else(|number| {
        let mut output = String::new();
        print(&mut output, "no", [number]);
        output.into_bytes()
    })
}

fn print_ok(output: &mut String, store: &Store) {
    let rounds = format!("ok {}", store.rounds.get());
    print(output, &rounds, store.values.cells());
}

/// A line of a beginning and numbers.
fn print(
    output: &mut String,
    beginning: &str,
    numbers: impl IntoIterator<Item = impl std::fmt::Display>,
) {
    output.push_str(beginning);
    for number in numbers {
        write!(output, " {number}").expect("a string can be written to");
    }
    output.push('\n');
}
