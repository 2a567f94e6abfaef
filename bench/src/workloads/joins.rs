//! Joins: those that are timed, and those that take most stack.

use super::nests::{always, model, nests, sized_model, Nest, Size, FLOW, STATE};
use super::{large, Work, Workload, COUNTER};
use crate::model_gen::MAX_DEPTH;
use crate::tree::Instr;

/// Nodes that a join of 2 mandatory and 3 optional transitions of the model of many nodes adds: a transition and its
/// block; two guards of 7 nodes with an operator; two actions of 13; three times an if-then, a guard and an action.
const ADDED: usize = 2 + 15 + 26 + 63;

/// A join whose new model has exactly so many nodes.
fn large_join(name: String, nodes: usize) -> Workload {
    let work = Work::Synchronise(vec![0; 2], vec![0; 3]);
    Workload::new(name, large(nodes - ADDED).encode(), work)
}

/// The joins of the ratio table. In the counter the power is cut, and the battery, the cradle and the till fail if they
/// can.
pub(super) fn timed() -> Vec<Workload> {
    vec![
        Workload::new(
            "synchronise, counter, 1 mandatory and 3 optional",
            COUNTER.to_vec(),
            Work::Synchronise(vec![11], vec![3, 5, 9]),
        ),
        large_join(
            "synchronise, 4,000 nodes, 2 mandatory and 3 optional".into(),
            4_000,
        ),
        many_members(1_300),
    ]
}

pub(super) fn of_growing_models() -> Vec<Workload> {
    let sizes = [500, 1_000, 2_000, 4_000, 12_000];
    let join = |nodes| large_join(format!("synchronise, {nodes} nodes"), nodes);
    sizes.map(join).into()
}

pub(super) fn of_growing_lists() -> Vec<Workload> {
    [325, 650, 1_300].map(many_members).into()
}

/// So many optional members beside a mandatory one, in a small model.
fn many_members(count: usize) -> Workload {
    let model = model(always(), Instr::Skip, Instr::Block(vec![Instr::Skip]));
    let work = Work::Synchronise(vec![0], vec![0; count]);
    let name = format!("synchronise, {count} optional members");
    Workload::new(name, model.encode(), work)
}

/// Joins for the stack: new models of so many nodes as the size says and of depth 32, and many members.
pub fn deep_joins(size: Size) -> Vec<Workload> {
    let mut workloads = Vec::new();
    for nest in nests() {
        for (members, depths, lists) in [
            ("1 mandatory", [32, 31], [vec![0], vec![]]),
            ("2 mandatory", [31, 31], [vec![0; 2], vec![]]),
            ("1 optional", [30, 30], [vec![], vec![0]]),
        ] {
            let name = format!("synchronise, {members}, nested {}", nest.name);
            workloads.push(deep_join(size, name, &nest, depths, lists));
        }
    }
    let nest = &nests()[0];
    let many = size.nodes() / 12;
    for (mandatory, optional) in [(32, 0), (32, many), (0, 32), (1, many)] {
        let name = format!("synchronise, {mandatory} mandatory and {optional} optional");
        let lists = [vec![0; mandatory], vec![0; optional]];
        workloads.push(deep_join(size, name, nest, [1, 2], lists));
    }
    workloads
}

/// A join in a model whose transition has a guard and an action of these depths, filled up so that it has all nodes with
/// it.
fn deep_join(
    size: Size,
    name: String,
    nest: &Nest,
    depths: [usize; 2],
    lists: [Vec<usize>; 2],
) -> Workload {
    let guard = (nest.expression)(depths[0]);
    let action = (nest.instruction)(STATE, depths[1]);
    let [mandatory, optional] = lists;
    let copied = [guard.nodes().len(), action.nodes().len()];
    let added = added_nodes(copied, mandatory.len(), optional.len());
    let branch = (nest.instruction)(FLOW, MAX_DEPTH - 1);
    let model = sized_model(size, guard, action, branch, size.nodes() - added);
    Workload::new(name, model.encode(), Work::Synchronise(mandatory, optional))
}

/// How many nodes a join of one transition has, by the nodes of its guard and of its action.
fn added_nodes([guard, action]: [usize; 2], mandatory: usize, optional: usize) -> usize {
    let joined = if mandatory > 0 { mandatory } else { optional };
    let guards = joined * (guard + 1) - 1;
    2 + guards + mandatory * action + optional * (1 + guard + action)
}
