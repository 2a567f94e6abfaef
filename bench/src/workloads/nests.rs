//! Models that nest as deep as they may, for the stack.

use super::{booleans, filled, number, rewrite, Work, Workload};
use crate::model_gen::{MAX_DEPTH, MAX_NODES, MAX_VARIABLES};
use crate::tree::{Expr, Instr, Model, Operator, Variable};

// The variables of these models.
pub(super) const STATE: usize = 0;
pub(super) const FLOW: usize = 1;

pub(super) fn always() -> Expr {
    Expr::Boolean(true)
}

/// A Boolean state and a Boolean flow, and a transition with this guard and this action.
pub(super) fn model(guard: Expr, action: Instr, assertion: Instr) -> Model {
    let variables = vec![Variable::Boolean { first: true }];
    Model::with_transition(variables.clone(), variables, guard, action, assertion)
}

/// How large a model for the stack is: some calls of the library take smaller arrays for small models.
#[derive(Clone, Copy, Debug, PartialEq, Eq)]
pub enum Size {
    Small,
    Large,
}

impl Size {
    pub const ALL: [Size; 2] = [Size::Small, Size::Large];

    pub fn name(self) -> &'static str {
        match self {
            Size::Small => "small",
            Size::Large => "large",
        }
    }

    pub fn nodes(self) -> usize {
        match self {
            Size::Small => 1_024,
            Size::Large => MAX_NODES,
        }
    }

    pub fn variables(self) -> usize {
        match self {
            Size::Small => 256,
            Size::Large => MAX_VARIABLES,
        }
    }
}

/// Such a model whose assertion has this branch, with so many variables as its size says and so many nodes.
pub(super) fn sized_model(
    size: Size,
    guard: Expr,
    action: Instr,
    branch: Instr,
    nodes: usize,
) -> Model {
    let mut model = model(guard, action, Instr::Block(vec![branch]));
    let more = size.variables() - model.variables().count();
    let flow = Variable::Boolean { first: true };
    model.flows.extend(std::iter::repeat_n(flow, more));
    filled(model, nodes)
}

/// A way to nest expressions: one level around an expression.
type Around = fn(Expr) -> Expr;

/// Boolean expressions in one another.
const EXPRESSIONS: [(&str, Around); 5] = [
    ("not", Expr::negated),
    ("and", |inner| Expr::binary(Operator::And, inner, always())),
    ("equal", |inner| {
        Expr::binary(Operator::EqualBooleans, always(), inner)
    }),
    ("if-then-else", |inner| {
        Expr::conditional(always(), inner, always())
    }),
    ("if-then-else by the flow", |inner| {
        Expr::conditional(Expr::Variable(FLOW), always(), inner)
    }),
];

/// An expression of this depth.
fn deep_expression(around: Around, depth: usize) -> Expr {
    (1..depth).fold(Expr::Variable(STATE), |inner, _| around(inner))
}

/// A relation of this depth, differences in one another at its left.
fn deep_difference(depth: usize) -> Expr {
    let difference = (2..depth).fold(number(1), |inner, _| {
        Expr::binary(Operator::Minus, inner, number(1))
    });
    Expr::binary(Operator::Less, difference, number(1))
}

/// Blocks, or conditions, in one another around an assignment to this variable.
fn deep_instruction(has_conditions: bool, variable: usize, depth: usize) -> Instr {
    let assignment = Instr::Assign(variable, always());
    (2..depth).fold(assignment, |inner, _| match has_conditions {
        true => Instr::when(always(), inner),
        false => Instr::Block(vec![inner]),
    })
}

/// What a nest is made of: an expression, an instruction that assigns this variable, each of a given depth.
pub(super) struct Nest {
    pub(super) name: String,
    pub(super) expression: Box<dyn Fn(usize) -> Expr>,
    pub(super) instruction: Box<dyn Fn(usize, usize) -> Instr>,
}

/// The nests of expressions.
pub(super) fn expression_nests() -> Vec<Nest> {
    let mut nests: Vec<Nest> = EXPRESSIONS
        .into_iter()
        .map(|(name, around)| Nest {
            name: name.into(),
            expression: Box::new(move |depth| deep_expression(around, depth)),
            instruction: Box::new(move |variable, depth| {
                Instr::Assign(variable, deep_expression(around, depth - 1))
            }),
        })
        .collect();
    nests.push(Nest {
        name: "minus".into(),
        expression: Box::new(deep_difference),
        instruction: Box::new(|variable, depth| {
            Instr::Assign(variable, deep_difference(depth - 1))
        }),
    });
    nests
}

/// The nests of expressions and of instructions.
pub(super) fn nests() -> Vec<Nest> {
    let mut nests = expression_nests();
    for (name, has_conditions) in [("blocks", false), ("if-then", true)] {
        nests.push(Nest {
            name: name.into(),
            expression: Box::new(|depth| deep_expression(Expr::negated, depth)),
            instruction: Box::new(move |variable, depth| {
                deep_instruction(has_conditions, variable, depth)
            }),
        });
    }
    nests
}

/// Runs of models as deep as they may be: in the action and the assertion, for a fire, and for an undo that fires again;
/// in the guard, for a start.
pub fn deep_runs(size: Size) -> Vec<Workload> {
    let mut workloads = Vec::new();
    for nest in nests() {
        let action = (nest.instruction)(STATE, MAX_DEPTH);
        // The assertion is a block around it.
        let branch = (nest.instruction)(FLOW, MAX_DEPTH - 1);
        let model = sized_model(size, always(), action, branch, size.nodes()).encode();
        let run = |name: &str, work| {
            let name = format!("{name}, nested {}", nest.name);
            Workload::new(name, model.clone(), work)
        };
        workloads.push(run("start and fire", Work::Run(vec![0], 1)));
        workloads.push(run("undo at n = 2", Work::Undo(vec![0], 2)));
    }
    let guards = expression_nests();
    workloads.extend(guards.iter().map(|nest| deep_guard(size, nest)));
    workloads
}

/// The start of a model with a guard of this nest. The flow is false: where it is a condition, it chooses what is
/// nested.
fn deep_guard(size: Size, nest: &Nest) -> Workload {
    let name = format!("start, guard of nested {}", nest.name);
    let never = Instr::Assign(FLOW, Expr::Boolean(false));
    let guard = (nest.expression)(MAX_DEPTH);
    let model = sized_model(size, guard, Instr::Skip, never, size.nodes());
    Workload::new(name, model.encode(), Work::Start)
}

/// A model of this size for the calls that change no run, and for texts.
pub(super) fn plain_model(size: Size) -> Model {
    sized_model(size, always(), Instr::Skip, Instr::Skip, size.nodes())
}

/// A model of this size that has an old file: at most 510 variables and 4,000 nodes.
fn old_model(size: Size) -> Model {
    match size {
        Size::Small => plain_model(size),
        Size::Large => {
            let assertion = Instr::Block(Vec::new());
            let model = Model {
                assertion,
                ..booleans()
            };
            filled(model, 4_000)
        }
    }
}

/// The calls that change no run.
pub fn sized_readings(size: Size) -> Vec<Workload> {
    let model = plain_model(size).encode();
    let reading = |name: &str, work| Workload::new(name, model.clone(), work);
    vec![
        reading("check", Work::Check),
        reading("marks", Work::Marks),
        reading("value", Work::Value(size.variables() - 1)),
        reading("pick", Work::Pick),
        reading("first_outside", Work::FirstOutside(None)),
        rewrite("rewrite", &old_model(size)),
    ]
}
