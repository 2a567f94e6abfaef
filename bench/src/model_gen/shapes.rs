//! Well-formed models of each shape.

use super::writer::{edge, edge_condition, failed, Writer};
use super::{Shape, MAX_DEPTH, MAX_NODES};
use crate::random::Random;
use crate::tree::{Expr, Instr, Model, Operator, Transition, Variable};

fn variable(random: &mut Random, ends: bool) -> Variable {
    if random.coin() {
        let first = random.coin();
        return Variable::Boolean { first };
    }
    let (low, high) = match random.below(6) {
        0 => (i32::MIN, i32::MAX),
        1 => (random.within(i32::MIN, i32::MIN + 3), 3),
        2 => (-2, random.within(i32::MAX - 3, i32::MAX)),
        _ => (0, 0),
    };
    let (low, high) = if ends && low < high {
        (low, high)
    } else {
        let low = random.within(-3, 2);
        (low, low + random.within(0, 6))
    };
    let first = match random.below(4) {
        0 => low,
        1 => high,
        _ => random.within(low, high),
    };
    Variable::Number { low, high, first }
}

fn variables(random: &mut Random, count: usize, ends: bool) -> Vec<Variable> {
    (0..count).map(|_| variable(random, ends)).collect()
}

/// A model with so many states, flows and transitions.
fn build(
    random: &mut Random,
    shape: Shape,
    [states, flows, transitions]: [usize; 3],
    wild: usize,
) -> Model {
    let ends = shape == Shape::Ends;
    let mut writer = Writer {
        variables: variables(random, states + flows, ends),
        random,
        states,
        wild,
        ends,
    };
    let spare = writer.random.below(3);
    let events = (transitions.max(1) + spare) as u16;
    let transitions = (0..transitions)
        .map(|_| transition(&mut writer, events))
        .collect();
    let assertion = match shape {
        Shape::Small | Shape::Cyclic => {
            let depth = writer.random.between(1, 7);
            writer.any_assertion(depth)
        }
        _ => writer.ordered_assertion(10),
    };
    let declared = writer.variables;
    Model {
        states: declared[..states].to_vec(),
        flows: declared[states..].to_vec(),
        events,
        transitions,
        assertion,
    }
}

/// A transition with one of so many events.
fn transition(writer: &mut Writer, events: u16) -> Transition {
    let all: Vec<usize> = (0..writer.variables.len()).collect();
    let guard_depth = writer.random.between(1, 5);
    let action_depth = writer.random.between(2, 7);
    Transition {
        event: writer.random.below(events.into()) as u16,
        guard: if writer.random.chance(1, 3) {
            Expr::Boolean(true)
        } else {
            writer.boolean(&all, guard_depth)
        },
        action: writer.action(&all, action_depth),
    }
}

/// A model of a few variables and transitions.
pub fn plain(random: &mut Random, shape: Shape) -> Model {
    let sizes = match shape {
        Shape::Small => [random.below(4), random.below(4), random.below(4)],
        _ => [random.between(1, 6), random.below(8), random.between(1, 6)],
    };
    let wild = *random.one(&[0, 2, 10, 40]);
    build(random, shape, sizes, wild)
}

/// Each flow takes the value of another, the first that of a state.
pub fn chain(random: &mut Random) -> Model {
    let flows = match random.chance(1, 20) {
        true => *random.one(&[256, 257, 600]),
        false => *random.one(&[1, 2, 16, 100, 254, 255]),
    };
    let state = variable(random, false);
    let (low, high) = state.ends();
    let [action, last] = if state.is_boolean() {
        [Expr::Variable(0).negated(), Expr::Variable(flows)]
    } else {
        let end = Expr::Number(high);
        let within = Expr::binary(Operator::LessOrEqual, Expr::Variable(flows), end);
        [Expr::Number(random.within(low, high)), within]
    };
    Model {
        states: vec![state],
        flows: vec![state; flows],
        events: 1,
        assertion: Instr::Block(links(random, flows, &last)),
        transitions: vec![
            Transition {
                event: 0,
                guard: Expr::Boolean(true),
                action: Instr::Assign(0, action),
            },
            Transition {
                event: 0,
                guard: last,
                action: Instr::Skip,
            },
        ],
    }
}

/// The assignments of a chain of so many flows, one of them missing at times; at times each is an if-then-else with this
/// condition and equal branches.
fn links(random: &mut Random, flows: usize, condition: &Expr) -> Vec<Instr> {
    let mut order: Vec<usize> = (1..=flows).collect();
    if random.coin() {
        random.shuffle(&mut order);
    } else {
        order.reverse();
    }
    let is_conditional = random.chance(1, 3);
    let mut before = 0;
    let mut branches: Vec<Instr> = order
        .iter()
        .map(|&flow| {
            let from = Expr::Variable(std::mem::replace(&mut before, flow));
            let value = match is_conditional {
                true => Expr::conditional(condition.clone(), from.clone(), from),
                false => from,
            };
            Instr::Assign(flow, value)
        })
        .collect();
    if random.coin() {
        branches.reverse();
    }
    if random.chance(1, 4) {
        branches.remove(random.below(branches.len()));
    }
    branches
}

/// Guards, actions and the assertion of a plain model, wrapped until they are at depth 32 or near it.
pub fn deep(random: &mut Random) -> Model {
    let mut model = build(random, Shape::Ordered, [3, 4, 3], 5);
    let boolean = model.states.iter().position(Variable::is_boolean);
    let condition = boolean.map_or(Expr::Boolean(false), Expr::Variable);
    for transition in &mut model.transitions {
        if random.coin() {
            let depth = random.between(28, MAX_DEPTH);
            while transition.guard.depth() < depth {
                let inner = std::mem::replace(&mut transition.guard, Expr::Boolean(true));
                transition.guard = wrap_expression(random, inner);
            }
        }
        if random.coin() {
            let depth = random.between(28, MAX_DEPTH);
            while transition.action.depth() < depth {
                let inner = std::mem::replace(&mut transition.action, Instr::Skip);
                transition.action = wrap_instruction(random, inner, &condition);
            }
        }
    }
    let depth = random.between(28, MAX_DEPTH);
    while model.assertion.depth() < depth {
        let inner = std::mem::replace(&mut model.assertion, Instr::Skip);
        model.assertion = wrap_instruction(random, inner, &condition);
    }
    model
}

pub(super) fn wrap_expression(random: &mut Random, inner: Expr) -> Expr {
    match random.below(5) {
        0 => Expr::binary(Operator::And, Expr::Boolean(true), inner),
        1 => Expr::binary(Operator::Or, inner, Expr::Boolean(false)),
        2 => Expr::binary(Operator::EqualBooleans, inner, Expr::Boolean(true)),
        3 => Expr::conditional(Expr::Boolean(true), inner, Expr::Boolean(false)),
        _ => inner.negated(),
    }
}

fn wrap_instruction(random: &mut Random, inner: Instr, condition: &Expr) -> Instr {
    match random.below(6) {
        0 => Instr::when(Expr::Boolean(true), inner),
        1 => Instr::Block(vec![Instr::Skip, inner]),
        2 => Instr::Block(vec![
            inner,
            Instr::when(Expr::Boolean(false), Instr::Block(Vec::new())),
        ]),
        3 if random.chance(1, 8) => Instr::when(condition.clone(), inner),
        _ => Instr::Block(vec![inner]),
    }
}

/// Each flow takes a state's value, and each transition assigns its own state.
pub fn full(random: &mut Random) -> Model {
    let count = *random.one(&[127, 128, 129, 254, 255, 255, 256, 257, 500, 1_190]);
    let states = variables(random, count, false);
    let flows: Vec<Variable> = states
        .iter()
        .map(|state| match *state {
            Variable::Boolean { .. } => *state,
            Variable::Number { low, high, .. } => Variable::Number {
                low,
                high,
                first: low,
            },
        })
        .collect();
    let constant = |variable: &Variable, random: &mut Random| match *variable {
        Variable::Boolean { .. } => Expr::Boolean(random.coin()),
        Variable::Number { low, high, .. } => Expr::Number(random.within(low, high)),
    };
    let transitions = (0..count)
        .map(|place: usize| Transition {
            event: place as u16,
            guard: Expr::Boolean(random.chance(2, 3)),
            action: Instr::Assign(place, constant(&states[place], random)),
        })
        .collect();
    let branches = (0..count)
        .map(|place| Instr::Assign(count + place, Expr::Variable(place)))
        .collect();
    Model {
        states,
        flows,
        events: count as u16,
        transitions,
        assertion: Instr::Block(branches),
    }
}

/// A large ordered model, filled up to 12,000 nodes or nearly so; at times to 4,000, or to 1,023 to 1,026.
pub fn wide(random: &mut Random) -> Model {
    let goal = match random.below(4) {
        0 => random.between(1_023, 1_026),
        1 => 4_000,
        _ => MAX_NODES - random.below(2) * random.below(300),
    };
    let most = if goal < 4_000 { 10 } else { 60 };
    let sizes = [0; 3].map(|_| random.between(most / 6, most));
    let mut model = build(random, Shape::Ordered, sizes, 1);
    let used = model.nodes().len();
    if used + 2 <= goal {
        // Branches of one node each, some of them blocks without branches.
        let mut branches: Vec<Instr> = (0..goal - used - 1)
            .map(|_| match random.coin() {
                true => Instr::Skip,
                false => Instr::Block(Vec::new()),
            })
            .collect();
        let place = random.between(0, branches.len());
        branches.insert(place, std::mem::replace(&mut model.assertion, Instr::Skip));
        model.assertion = Instr::Block(branches);
    }
    model
}

/// Actions and an assertion that give a few numbers values which agree, differ, are outside their ends or fail.
pub fn faulty(random: &mut Random) -> Model {
    let number = Variable::Number {
        low: 0,
        high: 2,
        first: 1,
    };
    let faultless = random.chance(1, 3);
    let transitions = (0..random.between(1, 4))
        .map(|_| Transition {
            event: 0,
            guard: if random.chance(1, 6) {
                Expr::binary(Operator::Less, edge(random), Expr::Variable(0))
            } else {
                Expr::Boolean(true)
            },
            action: collision(random, 0, 3),
        })
        .collect();
    let assertion = if faultless {
        Instr::Block(vec![
            Instr::Assign(2, Expr::Variable(0)),
            Instr::Assign(3, Expr::Variable(2)),
        ])
    } else {
        collision(random, 2, 3)
    };
    Model {
        states: vec![number; 2],
        flows: vec![number; 2],
        events: 1,
        transitions,
        assertion,
    }
}

/// Instructions that assign the variables `first` and the next one, mostly 1.
fn collision(random: &mut Random, first: usize, depth: usize) -> Instr {
    if depth > 0 && random.chance(2, 3) {
        let branches = random.between(0, 4);
        return Instr::Block(
            (0..branches)
                .map(|_| collision(random, first, depth - 1))
                .collect(),
        );
    }
    if depth > 0 && random.chance(1, 3) {
        let condition = faulty_condition(random);
        return Instr::when(condition, collision(random, first, depth - 1));
    }
    Instr::Assign(first + random.below(2), faulty_value(random))
}

/// A condition that is mostly true, and may fail or wait for a flow.
fn faulty_condition(random: &mut Random) -> Expr {
    match random.below(8) {
        0 => edge_condition(random),
        1 => is_one(2),
        2 => Expr::Boolean(false),
        3 => {
            let condition = undecided_condition(random);
            let chosen = faulty_condition(random);
            Expr::conditional(condition, chosen, faulty_condition(random))
        }
        _ => Expr::Boolean(true),
    }
}

/// A value that is mostly 1, and may fail, be outside its ends or wait for a flow.
fn faulty_value(random: &mut Random) -> Expr {
    match random.below(18) {
        0 => edge(random),
        1 => Expr::Number(3),
        2 => Expr::Number(0),
        3 => Expr::Variable(random.below(4)),
        4 => Expr::binary(Operator::Times, Expr::Variable(3), failed(random)),
        5..=10 => {
            let condition = undecided_condition(random);
            let chosen = faulty_branch(random);
            Expr::conditional(condition, chosen, faulty_branch(random))
        }
        _ => Expr::Number(1),
    }
}

/// Such a value; more of these fail or wait.
fn faulty_branch(random: &mut Random) -> Expr {
    match random.below(6) {
        0 | 1 => failed(random),
        2 => Expr::Variable(random.between(2, 3)),
        _ => faulty_value(random),
    }
}

/// A condition that waits for a flow or that mostly fails.
fn undecided_condition(random: &mut Random) -> Expr {
    match random.below(4) {
        0 => edge_condition(random),
        1 => Expr::binary(Operator::Less, failed(random), Expr::Number(0)),
        _ => is_one(random.between(2, 3)),
    }
}

fn is_one(variable: usize) -> Expr {
    let one = Expr::Number(1);
    Expr::binary(Operator::EqualNumbers, Expr::Variable(variable), one)
}
