//! Joins as trees, and random joins: models, lists of members and slices that are mostly long enough.

use super::lists::CUT;
use super::{MAX_DEPTH, MAX_NODES};
use crate::calls::Join;
use crate::random::Random;
use crate::tree::{Expr, Instr, Model, Operator, Transition};

/// The largest E and T; the nodes allow no such T.
const MAX_SIZE: usize = 65_535;

/// Bytes of the sizes, and of the largest model.
const HEADER: usize = 10;
const MAX_BYTES: usize = HEADER + 5 * MAX_NODES;

/// The model with one transition more, under a new event, that joins the mandatory transitions and the optional ones;
/// or the number of the refusal where no slice is too short.
pub fn joined(model: &Model, mandatory: &[usize], optional: &[usize]) -> Result<Model, u8> {
    if mandatory.is_empty() && optional.is_empty() {
        return Err(35);
    }
    let members = |numbers: &[usize]| -> Result<Vec<&Transition>, u8> {
        let members = numbers.iter().map(|&number| model.transitions.get(number));
        members.collect::<Option<_>>().ok_or(11)
    };
    let (mandatory, optional) = (members(mandatory)?, members(optional)?);
    if usize::from(model.events) == MAX_SIZE || model.transitions.len() == MAX_SIZE {
        return Err(36);
    }
    // So that no huge tree is built.
    let copied = mandatory.iter().chain(&optional);
    let copied = copied.map(|member| member.action.nodes().len());
    if copied.sum::<usize>() > MAX_NODES {
        return Err(36);
    }
    let mut new = model.clone();
    new.events += 1;
    new.transitions.push(Transition {
        event: model.events,
        guard: match &mandatory[..] {
            [] => nested(Operator::Or, &optional),
            some => nested(Operator::And, some),
        },
        action: together(&mandatory, &optional),
    });
    let is_within = new.nodes().len() <= MAX_NODES && new.depth() <= MAX_DEPTH;
    is_within.then_some(new).ok_or(36)
}

/// The guards of these transitions, of which there is one at least, nested to the right.
fn nested(operator: Operator, transitions: &[&Transition]) -> Expr {
    match transitions {
        [] => panic!("no transition to join"),
        [only] => only.guard.clone(),
        [first, rest @ ..] => Expr::binary(operator, first.guard.clone(), nested(operator, rest)),
    }
}

/// The mandatory actions, then the optional ones, each under its guard.
fn together(mandatory: &[&Transition], optional: &[&Transition]) -> Instr {
    let always = mandatory.iter().map(|member| member.action.clone());
    let guarded = optional
        .iter()
        .map(|member| Instr::when(member.guard.clone(), member.action.clone()));
    Instr::Block(always.chain(guarded).collect())
}

/// A model, mostly this one, and all that is lent to a join in it.
pub fn join(random: &mut Random, model: &Model) -> (Model, Join) {
    let mut model = model.clone();
    if random.chance(1, 12) {
        enlarge(random, &mut model);
    }
    let (mandatory, optional) = lists(random, model.transitions.len());
    if random.chance(1, 12) {
        fill_up(random, &mut model, &mandatory, &optional);
    }
    let needed = joined(&model, &mandatory, &optional)
        .ok()
        .map(|new| HEADER + 5 * new.nodes().len());
    let length = slice_length(random, needed);
    let out: Vec<u8> = (0..length).map(|_| random.byte()).collect();
    let join = Join::new(&mandatory, &optional, &out, random.bits() as usize);
    (model, join)
}

/// Brings E to its limit or near it, or E or T near that of a byte; at times T as near to the largest as the nodes allow.
fn enlarge(random: &mut Random, model: &mut Model) {
    let near_byte = random.between(254, 257);
    if random.coin() {
        let near_limit = random.between(MAX_SIZE - 2, MAX_SIZE);
        let goal = *random.one(&[near_byte, near_limit, near_limit]);
        model.events = model.events.max(goal as u16);
        return;
    }
    let free = (MAX_NODES - model.nodes().len()) / 3;
    let goal = match random.chance(1, 8) {
        true => model.transitions.len() + free,
        false => near_byte,
    };
    let missing = goal.saturating_sub(model.transitions.len());
    if model.events == 0 || missing > free {
        return;
    }
    let idle = Transition {
        event: 0,
        guard: Expr::Boolean(random.coin()),
        action: Instr::Skip,
    };
    let place = random.between(0, model.transitions.len());
    let more = std::iter::repeat_n(idle, missing);
    model.transitions.splice(place..place, more);
    model.transitions.truncate(goal);
}

/// Gives the assertion further branches, so that the new model has as many nodes as there may be, or one less or more.
fn fill_up(random: &mut Random, model: &mut Model, mandatory: &[usize], optional: &[usize]) {
    let Ok(new) = joined(model, mandatory, optional) else {
        return;
    };
    let limit = *random.one(&[4_000, MAX_NODES, MAX_NODES]);
    let goal = random.between(limit - 1, limit + 1);
    let used = new.nodes().len();
    if used < goal && model.assertion.depth() < MAX_DEPTH {
        let mut branches = vec![Instr::Skip; goal - used - 1];
        let place = random.between(0, branches.len());
        branches.insert(place, std::mem::replace(&mut model.assertion, Instr::Skip));
        model.assertion = Instr::Block(branches);
    }
}

/// The mandatory and the optional members: mostly a few transitions, which may repeat and stand in both lists.
fn lists(random: &mut Random, transitions: usize) -> (Vec<usize>, Vec<usize>) {
    let lengths = match random.below(20) {
        0 => [0, 0],
        1..=4 => [list_length(random), 0],
        5..=8 => [0, list_length(random)],
        _ => [list_length(random), list_length(random)],
    };
    let [mut mandatory, mut optional] = lengths.map(|length| members(random, length, transitions));
    if random.chance(1, 12) {
        let list = match random.coin() {
            true => &mut mandatory,
            false => &mut optional,
        };
        if !list.is_empty() {
            let any = random.below(list.len());
            let place = *random.one(&[any, list.len() - 1]);
            list[place] = missing(random, transitions);
        }
    }
    (mandatory, optional)
}

fn list_length(random: &mut Random) -> usize {
    match random.below(40) {
        0..=2 => random.between(30, 34),
        3 => random.between(35, 400),
        4 if random.chance(1, 6) => random.between(2_000, 5_000),
        5..=10 => random.between(5, 12),
        _ => random.between(1, 4),
    }
}

/// So many transitions, at times one and the same.
fn members(random: &mut Random, length: usize, transitions: usize) -> Vec<usize> {
    let only = random.below(transitions.max(1));
    let is_repeated = random.chance(1, 6);
    (0..length)
        .map(|_| match is_repeated {
            true => only,
            false => random.below(transitions.max(1)),
        })
        .collect()
}

/// A number that no transition has.
fn missing(random: &mut Random, transitions: usize) -> usize {
    match random.below(4) {
        0 | 1 => transitions,
        2 => transitions + random.between(1, 300),
        _ => random.below(transitions.max(1)) + *random.one(&CUT),
    }
}

/// The needed length, or more, or less, and then often one less.
fn slice_length(random: &mut Random, needed: Option<usize>) -> usize {
    let Some(needed) = needed else {
        // A slice of MAX_BYTES cells would be too short for one node more.
        return *random.one(&[0, 500, MAX_BYTES, MAX_BYTES + 5, MAX_BYTES + 5_000]);
    };
    match random.below(12) {
        0 => needed - 1,
        1 => random.below(needed),
        2..=5 => needed,
        6 => MAX_BYTES,
        7 => needed + random.between(10, 300),
        _ => needed + random.between(1, 9),
    }
}
