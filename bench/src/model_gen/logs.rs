//! Random logs, what is asked of them, and their twins.

use super::damage::damage_nodes;
use super::lists::{fitting_length, put_outside, value, CUT};
use super::shapes::wrap_expression;
use super::writer::Writer;
use super::MAX_DEPTH;
use crate::calls::{Handed, Log};
use crate::random::Random;
use crate::reference::{self, Type};
use crate::tree::{self, Expr, Model, Node, Operator};

/// The longest window.
const MAX_WINDOW: usize = 1_000;

/// Two expressions, a window, rows, and a slice for the figures: mostly all fits the model.
pub fn log(random: &mut Random, model: &Model) -> Log {
    let (rows, count) = rows(random, model);
    let expressions = [true, false].map(|boolean| handed(random, model, boolean, count));
    let window = window(random, count);
    let length = fitting_length(random, 3 * count);
    let figures: Vec<i32> = (0..length).map(|_| random.number()).collect();
    let count = random.bits() as usize;
    Log::new(expressions, window, &rows, &figures, count)
}

/// An expression for so many rows, mostly of this type and whole.
fn handed(random: &mut Random, model: &Model, boolean: bool, rows: usize) -> Handed {
    let boolean = boolean != random.chance(1, 60);
    let mut nodes = expression(random, model, boolean, rows).nodes();
    if random.chance(1, 30) {
        damage_nodes(random, model.sizes(), &mut nodes);
    }
    if !random.chance(1, 60) {
        return Handed::of(&nodes);
    }
    let (kinds, mut parameters): (Vec<u8>, Vec<i32>) = nodes.into_iter().unzip();
    match random.coin() {
        true => parameters.push(0),
        false => parameters.truncate(kinds.len() / 2),
    }
    Handed::new(&kinds, &parameters)
}

/// Mostly a few nodes; at times as deep as may be or deeper, or for few rows thousands of nodes.
fn expression(random: &mut Random, model: &Model, boolean: bool, rows: usize) -> Expr {
    let variables: Vec<_> = model.variables().copied().collect();
    let readable = match variables.len() {
        0 => Vec::new(),
        some => (0..some.min(12)).map(|_| random.below(some)).collect(),
    };
    let kind = random.below(40);
    let mut writer = Writer {
        variables,
        states: model.states.len(),
        wild: *random.one(&[0, 0, 5, 30]),
        ends: random.chance(1, 4),
        random,
    };
    match kind {
        0..=2 => deep(&mut writer, &readable, boolean),
        3 if rows <= 12 => {
            let most = match writer.random.chance(1, 8) {
                true => 20_000,
                false => 500,
            };
            let leaves = writer.random.between(most / 3, most);
            wide(&mut writer, &readable, boolean, leaves)
        }
        _ => {
            let depth = writer.random.between(1, 6);
            writer.expression(&readable, boolean, depth)
        }
    }
}

/// Wrapped until it is at depth 32 or near it.
fn deep(writer: &mut Writer, readable: &[usize], boolean: bool) -> Expr {
    let mut condition = writer.expression(readable, true, 4);
    let depth = writer.random.between(MAX_DEPTH - 3, MAX_DEPTH + 1);
    while condition.depth() < depth - usize::from(!boolean) {
        condition = wrap_expression(writer.random, condition);
    }
    if boolean {
        return condition;
    }
    let chosen = writer.expression(readable, false, 4);
    Expr::conditional(condition, chosen, writer.expression(readable, false, 4))
}

/// So many small expressions, joined pair by pair.
fn wide(writer: &mut Writer, readable: &[usize], boolean: bool, leaves: usize) -> Expr {
    use Operator::*;
    if leaves <= 1 {
        return writer.expression(readable, boolean, 3);
    }
    let operator = *writer.random.one(match boolean {
        true => &[And, Or, EqualBooleans, EqualBooleans],
        false => &[Plus, Minus, Plus, Minus],
    });
    let left = wide(writer, readable, boolean, leaves / 2);
    Expr::binary(
        operator,
        left,
        wide(writer, readable, boolean, leaves - leaves / 2),
    )
}

/// Mostly a few rows, at times more than the longest window has; and how many whole ones there are. At times a value is
/// outside its ends, or the last row is none.
fn rows(random: &mut Random, model: &Model) -> (Vec<i32>, usize) {
    let width = model.variables().count();
    let mut count = match random.below(16) {
        0 => 0,
        1 if width <= 12 && random.coin() => random.between(MAX_WINDOW - 1, MAX_WINDOW + 90),
        2 if width <= 100 => random.between(20, 60),
        _ => random.between(1, 12),
    };
    let mut rows: Vec<i32> = (0..count)
        .flat_map(|_| model.variables())
        .map(|variable| value(random, variable))
        .collect();
    if count > 0 && random.chance(1, 12) {
        let any = random.below(count);
        let place = *random.one(&[0, any, count - 1]) * width;
        put_outside(random, model, &mut rows[place..place + width]);
    }
    match random.below(40) {
        0 if !rows.is_empty() => {
            rows.pop();
        }
        1 => rows.push(0),
        _ => {}
    }
    count = rows.len().checked_div(width).unwrap_or(0);
    (rows, count)
}

/// A window over so many rows: any of few rows, at the ends of what is allowed or beyond, or as many as there are.
fn window(random: &mut Random, rows: usize) -> usize {
    match random.below(32) {
        0 => *random.one(&[0, MAX_WINDOW + 1]),
        1 => random.between(0, MAX_WINDOW) + *random.one(&CUT),
        2 => *random.one(&[MAX_WINDOW - 1, MAX_WINDOW]),
        3..=5 => (rows + random.below(3)).saturating_sub(1),
        6 => random.between(1, MAX_WINDOW),
        _ => random.between(1, 6),
    }
}

/// A model file and a log with the operands of symmetric operators and the branches of blocks exchanged, wherever they are
/// accepted: a call gives the same.
pub fn twins(random: &mut Random, model: &[u8], log: &Log) -> (Vec<u8>, Log) {
    if reference::check(model).is_err() {
        return (model.to_vec(), log.clone());
    }
    let mut twin = log.clone();
    for (handed, wanted) in [
        (&mut twin.condition, Type::Boolean),
        (&mut twin.number, Type::Number),
    ] {
        let (kinds, parameters) = (handed.kinds.cells(), handed.parameters.cells());
        if reference::check_expression(model, kinds, parameters, wanted).is_ok() {
            let nodes: Vec<Node> = kinds
                .iter()
                .copied()
                .zip(parameters.iter().copied())
                .collect();
            *handed = Handed::of(&tree::shuffled(random, &nodes));
        }
    }
    let (sizes, nodes) = tree::decode(model).expect("an accepted file");
    let model = tree::encode(sizes, &tree::shuffled(random, &nodes));
    (model, twin)
}
