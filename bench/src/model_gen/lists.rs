//! What is lent to lists of calls, and the lists.

use crate::calls::{
    Call, Number, Store, CHECK, FIRE, FIRST_OUTSIDE, MARKS, PICK, START, TABLE, UNDO, VALUE,
};
use crate::guarded::Guarded;
use crate::random::Random;
use crate::tree::{Model, Variable};

/// What a list of calls is lent at its beginning: any lengths, any content, mostly fitting the model.
pub fn store(random: &mut Random, model: &Model) -> Store {
    let transitions = model.transitions.len();
    let values = values(random, model);
    let marks = marks(random, transitions);
    let (history, n) = history(random, transitions);
    let length = fitting_length(random, transitions);
    let buffer: Vec<u8> = (0..length).map(|_| random.byte()).collect();
    let length = fitting_length(random, 5);
    let sizes: Vec<u32> = (0..length).map(|_| random.bits() as u32).collect();

    Store {
        sizes: Guarded::new(&sizes),
        rounds: Guarded::new(&[random.bits() as usize]),
        value: Guarded::new(&[random.number()]),
        transition: Guarded::new(&[random.bits() as usize]),
        variable: Guarded::new(&[random.bits() as usize]),
        found: Guarded::new(&[random.byte()]),
        looked: Guarded::new(&[random.bits() as usize]),
        ..Store::new(&values, &marks, &history, n, &buffer)
    }
}

/// Values mostly within their ends; the cells after them hold any numbers.
fn values(random: &mut Random, model: &Model) -> Vec<i32> {
    let variables: Vec<&Variable> = model.variables().collect();
    let length = fitting_length(random, variables.len());
    let mut values: Vec<i32> = (0..length)
        .map(|place| match variables.get(place) {
            Some(variable) => value(random, variable),
            None => random.number(),
        })
        .collect();
    // Models of so many variables are rare.
    let often = if variables.len() > 256 { 12 } else { 3 };
    match random.below(20) {
        0 => values.fill_with(|| random.number()),
        chosen if chosen <= often => {
            for _ in 0..*random.one(&[1, 1, 2, 5]) {
                put_outside(random, model, &mut values);
            }
        }
        _ => {}
    }
    values
}

/// A value within the ends of this variable.
pub(super) fn value(random: &mut Random, variable: &Variable) -> i32 {
    match *variable {
        Variable::Number { first, .. } if random.chance(1, 3) => first,
        _ => {
            let (low, high) = variable.ends();
            random.within(low, high)
        }
    }
}

/// Puts one value outside its ends, or at times any number there, mostly where the states or the flows begin or end.
pub(super) fn put_outside(random: &mut Random, model: &Model, values: &mut [i32]) {
    let states = model.states.len();
    let variables: Vec<&Variable> = model.variables().collect();
    let place = match random.below(6) {
        0 => 0,
        1 => 1,
        2 => states.saturating_sub(1),
        3 => states,
        4 => variables.len().saturating_sub(1),
        _ => random.below(variables.len().max(1)),
    };
    let (Some(variable), Some(value)) = (variables.get(place), values.get_mut(place)) else {
        return;
    };
    let (low, high) = variable.ends();
    let near = if random.coin() {
        low.checked_sub(1)
    } else {
        high.checked_add(1)
    };
    // No number is beyond the 32-bit ends.
    *value = near
        .filter(|_| random.chance(2, 3))
        .unwrap_or_else(|| random.number());
}

/// Marks of a run, made up: mostly from 0 to 2, at times one of them above, or all any bytes; the cells after them are
/// any bytes.
fn marks(random: &mut Random, transitions: usize) -> Vec<u8> {
    let length = fitting_length(random, transitions);
    let mut marks: Vec<u8> = (0..length)
        .map(|place| match place < transitions {
            true => random.below(3) as u8,
            false => random.byte(),
        })
        .collect();
    match random.below(24) {
        0 => marks.fill_with(|| random.byte()),
        1..=3 if transitions > 0 => {
            let any = random.below(transitions);
            let place = *random.one(&[0, transitions - 1, any]);
            if let Some(mark) = marks.get_mut(place) {
                *mark = *random.one(&[3, 4, 128, 255]);
            }
        }
        _ => {}
    }
    marks
}

/// Entries mostly of the model's transitions, and how many of them count.
fn history(random: &mut Random, transitions: usize) -> (Vec<u16>, usize) {
    let places = match random.below(12) {
        0 => 0,
        1 => random.between(256, 300),
        _ => random.between(1, 12),
    };
    let mut history: Vec<u16> = (0..places)
        .map(|_| random.below(transitions.max(1)) as u16)
        .collect();
    if random.chance(1, 8) && places > 0 {
        let place = random.below(places);
        history[place] = entry(random, transitions);
    }
    let n = match random.below(12) {
        0 => places,
        1 => places + random.between(1, 300),
        2 => random.between(0, places) + *random.one(&CUT),
        3 => 0,
        _ => random.between(0, places.min(6)),
    };
    (history, n)
}

/// Any entry of a history: a byte, T, one that is below T when cut to 8 bits, the largest.
fn entry(random: &mut Random, transitions: usize) -> u16 {
    match random.below(5) {
        0 => random.byte().into(),
        1 => transitions as u16,
        2 => (random.below(transitions.max(1)) % 256 + 256) as u16,
        3 => u16::MAX,
        _ => random.bits() as u16,
    }
}

/// What cutting a number to 8, 16 or 32 bits takes away; and nearly the largest number.
pub(super) const CUT: [usize; 4] = [256, 65_536, 1 << 32, usize::MAX - 1_000];

/// The wanted length, often more, at times less, and then often one less.
pub(super) fn fitting_length(random: &mut Random, wanted: usize) -> usize {
    match random.below(16) {
        0 if wanted > 0 && random.coin() => wanted - 1,
        0 if wanted > 0 => random.below(wanted),
        1 => wanted + random.between(1, 300),
        2..=6 => wanted + random.between(1, 4),
        _ => wanted,
    }
}

/// A list of calls; numbers are mostly those of the model.
pub fn calls(random: &mut Random, model: &Model) -> Vec<Call> {
    let length = random.between(1, 18);
    (0..length)
        .map(|place| {
            let row = match random.below(22) {
                _ if place == 0 && random.coin() => START,
                0 => CHECK,
                1 => START,
                2..=10 => FIRE,
                11..=13 => UNDO,
                14 | 15 => MARKS,
                16 | 17 => VALUE,
                18 | 19 => PICK,
                _ => FIRST_OUTSIDE,
            };
            let below = match TABLE[row].number {
                Number::None => return Call { row, number: 0 },
                Number::Transition => model.transitions.len(),
                Number::Variable => model.states.len() + model.flows.len(),
            };
            let number = match random.below(16) {
                0 => below,
                1 => below + random.between(1, 300),
                2 => random.below(below.max(1)) + *random.one(&CUT),
                _ => random.below(below.max(1)),
            };
            Call { row, number }
        })
        .collect()
}
