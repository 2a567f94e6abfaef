//! Models of if-then-else whose condition and branches are known, fail, or become known one round after another.

use super::writer::failed;
use crate::random::Random;
use crate::tree::{Expr, Instr, Model, Operator, Transition, Variable};

// The states.
const NUMBER: usize = 0;
const BOOLEAN: usize = 1;
// The flows: three numbers and three Booleans, each known a round after the one before it; two that get the value of an
// if-then-else; and one for a conflict.
const NUMBERS: [usize; 3] = [2, 3, 4];
const BOOLEANS: [usize; 3] = [5, 6, 7];
const NUMBER_RESULT: usize = 8;
const BOOLEAN_RESULT: usize = 9;
const CONFLICT: usize = 10;

/// All numbers are one of these two, so that branches often agree.
const VALUES: [i32; 2] = [4, 7];

pub fn undecided(random: &mut Random) -> Model {
    let is_boolean = |variable| BOOLEANS.contains(&variable) || variable >= BOOLEAN_RESULT;
    let flows = (NUMBERS[0]..=CONFLICT)
        .map(|flow| variable(random, is_boolean(flow)))
        .collect();
    let assigned = tree(random, false, 2);
    let actions = [
        Instr::Assign(NUMBER, constant(random, false)),
        Instr::Assign(BOOLEAN, Expr::Variable(BOOLEAN).negated()),
        Instr::Assign(NUMBER, assigned),
        conditional_assignment(random, BOOLEAN, true),
    ];
    let transitions = actions.map(|action| Transition {
        event: 0,
        guard: match random.chance(2, 3) {
            true => Expr::Boolean(true),
            false => tree(random, true, 2),
        },
        action,
    });
    Model {
        states: vec![variable(random, false), variable(random, true)],
        flows,
        events: 1,
        transitions: transitions.into(),
        assertion: assertion(random),
    }
}

fn variable(random: &mut Random, is_boolean: bool) -> Variable {
    if is_boolean {
        let first = random.coin();
        return Variable::Boolean { first };
    }
    Variable::Number {
        low: 0,
        high: 9,
        first: *random.one(&VALUES),
    }
}

fn constant(random: &mut Random, is_boolean: bool) -> Expr {
    if is_boolean {
        Expr::Boolean(random.coin())
    } else {
        Expr::Number(*random.one(&VALUES))
    }
}

fn failed_leaf(random: &mut Random, is_boolean: bool) -> Expr {
    let number = failed(random);
    if is_boolean {
        Expr::binary(Operator::EqualNumbers, number, Expr::Number(1))
    } else {
        number
    }
}

/// Known at once, known later, or failed.
fn leaf(random: &mut Random, is_boolean: bool) -> Expr {
    let (state, flows) = match is_boolean {
        true => (BOOLEAN, BOOLEANS),
        false => (NUMBER, NUMBERS),
    };
    match random.below(7) {
        0 => failed_leaf(random, is_boolean),
        1..=3 => Expr::Variable(*random.one(&flows)),
        4 => Expr::Variable(state),
        _ => constant(random, is_boolean),
    }
}

/// If-then-else in one another, at most so deep.
fn tree(random: &mut Random, is_boolean: bool, depth: usize) -> Expr {
    if depth == 0 || random.chance(1, 4) {
        return leaf(random, is_boolean);
    }
    let condition = tree(random, true, depth - 1);
    let chosen = tree(random, is_boolean, depth - 1);
    let other = match random.chance(1, 4) {
        true => chosen.clone(),
        false => tree(random, is_boolean, depth - 1),
    };
    Expr::conditional(condition, chosen, other)
}

/// An assignment of an if-then-else, or under one.
fn conditional_assignment(random: &mut Random, target: usize, is_boolean: bool) -> Instr {
    if random.coin() {
        return Instr::Assign(target, tree(random, is_boolean, 2));
    }
    let condition = tree(random, true, 2);
    Instr::when(
        condition,
        Instr::Assign(target, constant(random, is_boolean)),
    )
}

/// The flows that become known, one of them missing at times; one or two results; at times a fault in one of the
/// rounds.
fn assertion(random: &mut Random) -> Instr {
    let mut branches = Vec::new();
    for (state, flows) in [(NUMBER, NUMBERS), (BOOLEAN, BOOLEANS)] {
        let before = [state, flows[0], flows[1]];
        let links = flows.into_iter().zip(before);
        branches.extend(links.map(|(flow, from)| Instr::Assign(flow, Expr::Variable(from))));
    }
    if random.chance(1, 4) {
        branches.remove(random.below(branches.len()));
    }
    let results = [(NUMBER_RESULT, false), (BOOLEAN_RESULT, true)];
    for _ in 0..random.between(1, 2) {
        let (result, is_boolean) = *random.one(&results);
        branches.push(conditional_assignment(random, result, is_boolean));
    }
    if random.chance(1, 3) {
        branches.extend(fault(random));
    }
    random.shuffle(&mut branches);
    Instr::Block(branches)
}

/// A conflict or a value outside its ends, in any of the first rounds.
fn fault(random: &mut Random) -> Vec<Instr> {
    let from = Expr::Variable(*random.one(&[NUMBER, NUMBERS[0], NUMBERS[1], NUMBERS[2]]));
    let ten = Expr::Number(10);
    if random.coin() {
        let outside = Expr::binary(Operator::Plus, from, ten);
        return vec![Instr::Assign(NUMBER_RESULT, outside)];
    }
    vec![
        Instr::Assign(CONFLICT, Expr::binary(Operator::Less, from.clone(), ten)),
        Instr::Assign(CONFLICT, Expr::binary(Operator::Less, from.clone(), from)),
    ]
}
