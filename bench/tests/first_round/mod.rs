//! Models that tell what an expression is in the first round, in which some flows are unknown.

use bench::reference::{self, Refusal};
use bench::tree::{Expr, Instr, Model, Variable};

use crate::common::{equals, too_large, zero_divisor, Evaluation, Manner};

use Evaluation::{Failed, Unknown, Value};
use Manner::{TooLarge, ZeroDivisor};

// The variables: a number and a Boolean as states, then as flows, and three more flows. LATER is true from the second round
// on; WAITING and WAITING_NUMBER are never assigned.
pub const STATES: usize = 0;
pub const FLOWS: usize = 2;
pub const LATER: usize = 4;
pub const WAITING: usize = 5;
pub const WAITING_NUMBER: usize = 6;

/// The state's initial value and the flows' reset value are 4.
const NUMBER: Variable = Variable::Number {
    low: 0,
    high: 9,
    first: 4,
};
const BOOLEAN: Variable = Variable::Boolean { first: true };

pub fn model(guard: Expr, action: Instr, assertion: Instr) -> Model {
    let later = Instr::Assign(LATER, Expr::Boolean(true));
    Model::with_transition(
        vec![NUMBER, BOOLEAN],
        vec![NUMBER, BOOLEAN, BOOLEAN, BOOLEAN, NUMBER],
        guard,
        action,
        Instr::Block(vec![assertion, later]),
    )
}

/// The Boolean of these variables gets two values.
pub fn conflict(first: usize) -> Instr {
    let values = [false, true].map(|value| Instr::Assign(first + 1, Expr::Boolean(value)));
    Instr::Block(values.into())
}

/// The number of these variables is outside its ends.
pub fn outside(first: usize) -> Instr {
    Instr::Assign(first, Expr::Number(10))
}

/// The answer to a start, and the marks.
pub fn start(model: &Model) -> (Result<usize, u8>, Vec<u8>) {
    let mut values = vec![9; model.variables().count()];
    let mut marks = vec![9; model.transitions.len()];
    let answer = reference::start(&model.encode(), &mut values, &mut marks, &mut 0);
    (answer.map_err(Refusal::number), marks)
}

/// An expression and what it is in the first round.
pub type Case = (Expr, Evaluation);

/// Numbers: unknown, failed in both manners, and two values.
pub fn numbers() -> Vec<Case> {
    vec![
        (Expr::Variable(WAITING_NUMBER), Unknown),
        (zero_divisor(), Failed(ZeroDivisor)),
        (too_large(), Failed(TooLarge)),
        (Expr::Number(0), Value(0)),
        (Expr::Number(4), Value(4)),
    ]
}

/// Booleans: unknown, failed in both manners, and both values.
pub fn booleans() -> Vec<Case> {
    vec![
        (Expr::Variable(WAITING), Unknown),
        (equals(zero_divisor(), 1), Failed(ZeroDivisor)),
        (equals(too_large(), 1), Failed(TooLarge)),
        (Expr::Boolean(false), Value(0)),
        (Expr::Boolean(true), Value(1)),
    ]
}

/// Asserts what an expression is in the first round, in which there is a conflict: with a value outside its ends under the
/// condition that the expression has this value or that, the refusals tell.
pub fn assert_in_first_round(expr: &Expr, is_boolean: bool, wanted: Evaluation) {
    for value in if is_boolean { 0..2 } else { 0..10 } {
        let condition = match (is_boolean, value) {
            (true, 0) => expr.clone().negated(),
            (true, _) => expr.clone(),
            (false, _) => equals(expr.clone(), value),
        };
        let branches = vec![conflict(FLOWS), Instr::when(condition, outside(FLOWS))];
        let model = model(Expr::Boolean(true), Instr::Skip, Instr::Block(branches));
        let number = match wanted {
            Failed(ZeroDivisor) => 28,
            Failed(TooLarge) => 40,
            Value(wanted) if wanted == value => 29,
            Value(_) | Unknown => 30,
        };
        assert_eq!(start(&model).0, Err(number), "{expr:?} and {value}");
    }
}
