//! Windows over the rows of a log: those that are timed, and those that take most stack.

use super::nests::{always, expression_nests, plain_model, Size};
use super::{number, Work, Workload, COUNTER};
use crate::calls::{Handed, Log};
use crate::model_gen::MAX_DEPTH;
use crate::random::Random;
use crate::reference;
use crate::tree::{Expr, Operator};

/// The ends of the counter's variables.
const ENDS: [(i32, i32); 14] = {
    let mut ends = [(0, 1); 14];
    ends[0] = (0, 4);
    ends[2] = (0, 6);
    ends[12] = (0, 6);
    ends
};

/// Asked of the counter's log; the number fails where v1 is true and v12 is 0.
const CONDITION: &str = "v1 and v0 > 0 and (v7 or v2 + v12 <= 6)";
const NUMBER: &str = "v0 * 100 + (if v1 then div(60, v12) else v2 * 10)";

/// The rows of the long log.
const ROWS: usize = 100_000;

/// The windows that are timed.
const WINDOWS: [usize; 3] = [1, 60, 1_000];

/// The nodes of an expression typed for the counter.
fn typed(text: &str) -> Handed {
    let (mut kinds, mut parameters) = ([0; 400], [0; 400]);
    let count = reference::write_nodes(COUNTER, text.as_bytes(), &mut kinds, &mut parameters);
    let count = count.expect("a text that is accepted");
    Handed::new(&kinds[..count], &parameters[..count])
}

/// So many rows of the counter, with any values within their ends.
fn rows(count: usize) -> Vec<i32> {
    let mut random = Random::new(count as u64);
    let rows = (0..count).flat_map(|_| ENDS);
    rows.map(|(low, high)| random.within(low, high)).collect()
}

fn counter_log(count: usize, window: usize) -> Workload {
    let expressions = [CONDITION, NUMBER].map(typed);
    let log = Log::new(expressions, window, &rows(count), &[], 0);
    let name = format!("windows of {window} over {count} rows of the counter");
    Workload::new(name, COUNTER.to_vec(), Work::Windows(log))
}

/// Windows of growing length over one log, for the ratio table too.
pub fn windows() -> Vec<Workload> {
    WINDOWS.map(|window| counter_log(ROWS, window)).into()
}

pub(super) fn of_growing_logs() -> Vec<Workload> {
    [ROWS / 4, ROWS / 2, ROWS]
        .map(|rows| counter_log(rows, 60))
        .into()
}

/// Both expressions as deep as they may be, and one of very many nodes, over two rows of a model of this size.
pub fn deep_windows(size: Size) -> Vec<Workload> {
    let model = plain_model(size).encode();
    let rows = vec![1; 2 * size.variables()];
    let workload = |name: String, condition: Expr, chosen: Expr| {
        let number = Expr::conditional(chosen, number(1), number(2));
        let expressions = [condition, number].map(|expr| Handed::of(&expr.nodes()));
        let log = Log::new(expressions, 1_000, &rows, &[], 0);
        Workload::new(name, model.clone(), Work::Windows(log))
    };
    let nests = expression_nests();
    let mut workloads: Vec<Workload> = nests
        .iter()
        .map(|nest| {
            let name = format!("windows, nested {}", nest.name);
            let [condition, chosen] = [MAX_DEPTH, MAX_DEPTH - 1].map(&nest.expression);
            workload(name, condition, chosen)
        })
        .collect();
    let many = many_conditions(16);
    let name = format!("windows, condition of {} nodes", many.nodes().len());
    workloads.push(workload(name, many, always()));
    workloads
}

/// A full tree of this depth above its leaves.
fn many_conditions(depth: usize) -> Expr {
    match depth.checked_sub(1) {
        None => always(),
        Some(below) => {
            let left = many_conditions(below);
            Expr::binary(Operator::And, left, many_conditions(below))
        }
    }
}
