//! Chains: each flow takes the value of the flow before it, and so becomes known one round later than that one.

use super::{filled, Work, Workload};
use crate::tree::{Expr, Instr, Model, Operator, Variable};

/// How often the condition beside a chain mentions a flow: as often as 4,000 nodes allow if the chain has 255 flows.
const MENTIONS: usize = 1_613;

/// Flows of growing chains: each takes twice the rounds of the one before.
const LENGTHS: [usize; 4] = [31, 63, 127, 255];

fn start(name: impl Into<String>, model: Model) -> Workload {
    Workload::new(name, model.encode(), Work::Start)
}

/// The chains of the ratio table.
pub(super) fn timed() -> Vec<Workload> {
    vec![
        start(
            "chain of 255 flows in reverse, 256 rounds, start",
            chain(255, 0),
        ),
        start(
            "chain of 255 flows in order, 256 rounds, start",
            chain_in_order(255, 0),
        ),
        start(
            "chain of 3,999 flows in reverse, 4,000 rounds, start",
            flows_alone(3_999, 0),
        ),
        start(
            "one condition that mentions each of 255 flows, 256 rounds, start",
            one_condition(255, 4_000),
        ),
        start(
            "one condition that mentions each of 255 flows, all but one known at once, 2 rounds, start",
            known_at_once(255, 4_000),
        ),
        start(
            "if-then-else 29 deep, its condition known last, 4,000 nodes, 46 rounds, start",
            undecided(44, 4_000),
        ),
    ]
}

pub(super) fn of_growing_rounds() -> Vec<Workload> {
    let chain = |flows| {
        let name = format!("start, 2,000 nodes, {} rounds", flows + 1);
        start(name, chain(flows, 2_000))
    };
    LENGTHS.map(chain).into()
}

/// At the nodes of the longest chain.
pub(super) fn of_many_rounds() -> Vec<Workload> {
    let chain = |flows| {
        let name = format!("start, 11,998 nodes, {} rounds", flows + 1);
        start(name, flows_alone(flows, 11_998))
    };
    [499, 999, 1_999, 3_999].map(chain).into()
}

pub(super) fn of_growing_models() -> Vec<Workload> {
    let chain = |nodes| {
        let name = format!("start, 256 rounds, {nodes} nodes");
        start(name, chain(255, nodes))
    };
    [1_000, 2_000, 4_000].map(chain).into()
}

/// Growing chains beside one and the same number of mentions.
pub(super) fn of_growing_conditions() -> Vec<Workload> {
    let chain = |flows| {
        let rounds = flows + 1;
        let name = format!("start, one condition that mentions each flow, {rounds} rounds");
        start(name, one_condition(flows, 4_000))
    };
    LENGTHS.map(chain).into()
}

/// Growing numbers of flows, all but one of them known at once, beside one and the same number of mentions.
pub(super) fn of_growing_flows() -> Vec<Workload> {
    let model = |flows| {
        let name = format!("start, one condition that mentions each of {flows} flows, 2 rounds");
        start(name, known_at_once(flows, 4_000))
    };
    LENGTHS.map(model).into()
}

/// The assignments of a chain of so many flows, in the order in which the flows become known.
fn links(flows: usize) -> impl DoubleEndedIterator<Item = Instr> {
    (1..=flows).map(|flow| Instr::Assign(flow, Expr::Variable(flow - 1)))
}

/// So many flows under these branches, and a transition that changes the state before the first; filled up to so many
/// nodes.
fn model(flows: usize, branches: Vec<Instr>, nodes: usize) -> Model {
    let variable = Variable::Boolean { first: true };
    let model = Model::with_transition(
        vec![variable],
        vec![variable; flows],
        Expr::Boolean(true),
        Instr::Assign(0, Expr::Variable(0).negated()),
        Instr::Block(branches),
    );
    filled(model, nodes)
}

/// A chain, the last flow's assignment standing first; filled up to so many nodes.
pub fn chain(flows: usize, nodes: usize) -> Model {
    model(flows, links(flows).rev().collect(), nodes)
}

/// A chain, the first flow's assignment standing first; filled up to so many nodes.
pub fn chain_in_order(flows: usize, nodes: usize) -> Model {
    model(flows, links(flows).collect(), nodes)
}

/// A chain of flows alone, the first of which is true, the last one's assignment standing first; filled up to so many nodes.
pub fn flows_alone(flows: usize, nodes: usize) -> Model {
    let link = |flow: usize| match flow.checked_sub(1) {
        None => Instr::Assign(flow, Expr::Boolean(true)),
        Some(before) => Instr::Assign(flow, Expr::Variable(before)),
    };
    let model = Model {
        states: Vec::new(),
        flows: vec![Variable::Boolean { first: false }; flows],
        events: 0,
        transitions: Vec::new(),
        assertion: Instr::Block((0..flows).rev().map(link).collect()),
    };
    filled(model, nodes)
}

/// A chain in reverse, and after it one condition that mentions each flow, again and again: each round makes one of them
/// known, and the last decides. Under it the last flow takes its value once more. Filled up to so many nodes.
pub fn one_condition(flows: usize, nodes: usize) -> Model {
    let mut branches: Vec<Instr> = links(flows).rev().collect();
    branches.push(mentioning(flows));
    model(flows, branches, nodes)
}

/// Each flow but the last takes the value of the state, so that all of them are known after one round, and the last never
/// is; after them the same condition, which waits to the end. Filled up to so many nodes.
pub fn known_at_once(flows: usize, nodes: usize) -> Model {
    let known = |flow| Instr::Assign(flow, Expr::Variable(0));
    let mut branches: Vec<Instr> = (1..flows).map(known).collect();
    branches.push(mentioning(flows));
    model(flows, branches, nodes)
}

/// If all flows are true, the last one takes that value once more.
fn mentioning(flows: usize) -> Instr {
    let mentioned: Vec<usize> = (1..=flows).cycle().take(MENTIONS).collect();
    let again = Instr::Assign(flows, Expr::Boolean(true));
    Instr::when(all_true(&mentioned), again)
}

/// That these variables are true, by a tree as low as can be.
fn all_true(variables: &[usize]) -> Expr {
    match *variables {
        [variable] => Expr::Variable(variable),
        _ => {
            let (left, right) = variables.split_at(variables.len() / 2);
            Expr::binary(Operator::And, all_true(left), all_true(right))
        }
    }
}

/// A chain of so many flows, each by if-then-else in one another, 32 deep, the branches of which are the flow before it;
/// their condition is one flow more, the last. Filled up to so many nodes.
pub fn undecided(flows: usize, nodes: usize) -> Model {
    let condition = Expr::Variable(flows + 1);
    let link = |flow: usize| {
        let before = Expr::Variable(flow - 1);
        let value = (0..29).fold(before.clone(), |inner, _| {
            Expr::conditional(condition.clone(), inner, before.clone())
        });
        Instr::Assign(flow, value)
    };
    let mut branches: Vec<Instr> = (1..=flows).map(link).collect();
    branches.push(Instr::Assign(flows + 1, Expr::Variable(flows)));
    let variable = Variable::Boolean { first: true };
    let model = Model {
        states: vec![variable],
        flows: vec![variable; flows + 1],
        events: 0,
        transitions: Vec::new(),
        assertion: Instr::Block(branches),
    };
    filled(model, nodes)
}
