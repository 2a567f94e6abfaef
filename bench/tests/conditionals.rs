//! A6: an if-then-else whose condition is unknown or failed has the value that both its branches have, if they have one. A8:
//! a failed condition passes its manner on.

mod common;
mod first_round;

use std::slice::from_ref;

use bench::program::gtsrun;
use bench::reference::{self, Refusal, ENGINE};
use bench::tree::{Expr, Instr, Model, Operator, Variable};

use common::{equals, operation, zero_divisor, Evaluation, Manner};
use first_round::{assert_in_first_round, booleans, model, numbers, start, Case, STATES};
use Evaluation::{Failed, Unknown, Value};
use Manner::{TooLarge, ZeroDivisor};

/// The rule.
fn chosen(condition: Evaluation, one: Evaluation, two: Evaluation) -> Evaluation {
    match (condition, one, two) {
        (Value(1), _, _) => one,
        (Value(_), _, _) => two,
        (_, Value(a), Value(b)) if a == b => one,
        (_, Unknown, _) | (_, _, Unknown) => Unknown,
        _ => condition,
    }
}

// The states.
const FOUR: usize = STATES;
const TRUE: usize = STATES + 1;

fn number(value: i32) -> Expr {
    Expr::Number(value)
}

fn failed_boolean() -> Expr {
    equals(zero_divisor(), 1)
}

/// One number for each evaluation, and 4 by other nodes.
fn more_numbers() -> Vec<Case> {
    let sum = operation(Operator::Plus, 2, 2);
    let others = vec![(sum, Value(4)), (Expr::Variable(FOUR), Value(4))];
    [numbers(), others].concat()
}

/// One Boolean for each evaluation, and both values by other nodes.
fn more_booleans() -> Vec<Case> {
    let others = vec![
        (Expr::Variable(TRUE), Value(1)),
        (Expr::Variable(TRUE).negated(), Value(0)),
    ];
    [booleans(), others].concat()
}

/// Those that are known whatever the flows are.
fn known(cases: Vec<Case>) -> Vec<Case> {
    let known = |case: &Case| case.1 != Unknown;
    cases.into_iter().filter(known).collect()
}

/// The if-then-else of each condition, each first and each second branch.
fn conditionals(conditions: &[Case], ones: &[Case], twos: &[Case]) -> Vec<Case> {
    let mut cases = Vec::new();
    for (condition, c) in conditions {
        for (one, a) in ones {
            for (two, b) in twos {
                let expr = Expr::conditional(condition.clone(), one.clone(), two.clone());
                cases.push((expr, chosen(*c, *a, *b)));
            }
        }
    }
    cases
}

/// Every condition with every two branches, of both types.
#[test]
fn table_of_the_rule() {
    for (is_boolean, branches) in [(false, more_numbers()), (true, more_booleans())] {
        for (expr, wanted) in conditionals(&more_booleans(), &branches, &branches) {
            assert_in_first_round(&expr, is_boolean, wanted);
        }
    }
}

/// One if-then-else within another: its condition, its first or its second branch.
#[test]
fn table_within_the_table() {
    let conditions = booleans();
    for (is_boolean, branches) in [(false, numbers()), (true, booleans())] {
        let inner_conditions = conditionals(&conditions, &conditions, &conditions);
        let inner = conditionals(&conditions, &branches, &branches);
        let nested = [
            conditionals(&inner_conditions, &branches, &branches),
            conditionals(&conditions, &inner, &branches),
            conditionals(&conditions, &branches, &inner),
        ];
        for (expr, wanted) in nested.concat() {
            assert_in_first_round(&expr, is_boolean, wanted);
        }
    }
}

/// In a guard all is known.
#[test]
fn guards() {
    let parts = known(more_booleans());
    for (guard, wanted) in conditionals(&parts, &parts, &parts) {
        let (answer, marks) = start(&model(guard.clone(), Instr::Skip, Instr::Skip));
        assert_eq!(answer, Ok(2));
        let mark = match wanted {
            Value(value) => value as u8,
            _ => 2,
        };
        assert_eq!(marks, [mark], "{guard:?}");
    }
}

/// What firing leaves in the state that was 4, or the refusal.
fn fire(action: Instr) -> Result<i32, u8> {
    let file = model(Expr::Boolean(true), action, Instr::Skip).encode();
    let mut values = [4, 1, 0, 0, 0, 0, 0];
    let (mut marks, mut history, mut n) = ([0], [0], 0);
    reference::fire(&file, &mut values, &mut marks, &mut history, &mut n, 0)
        .map(|_| values[FOUR])
        .map_err(Refusal::number)
}

fn refusal_of_action(failed: Evaluation) -> u8 {
    match failed {
        Failed(ZeroDivisor) => 25,
        Failed(TooLarge) => 39,
        other => panic!("{other:?}"),
    }
}

/// In an action all is known: in what is assigned, and in a condition.
#[test]
fn actions() {
    let (conditions, branches) = (known(more_booleans()), known(more_numbers()));
    for (value, wanted) in conditionals(&conditions, &branches, &branches) {
        let wanted = match wanted {
            Value(value) => Ok(value),
            failed => Err(refusal_of_action(failed)),
        };
        let assignment = Instr::Assign(FOUR, value.clone());
        assert_eq!(fire(assignment), wanted, "{value:?}");
    }
    for (condition, wanted) in conditionals(&conditions, &conditions, &conditions) {
        let wanted = match wanted {
            Value(1) => Ok(5),
            Value(_) => Ok(4),
            failed => Err(refusal_of_action(failed)),
        };
        let found = fire(Instr::when(
            condition.clone(),
            Instr::Assign(FOUR, number(5)),
        ));
        assert_eq!(found, wanted, "{condition:?}");
    }
}

// The flows of the runs below: two numbers and two Booleans.
const X: usize = 0;
const W: usize = 1;
const Y: usize = 2;
const Z: usize = 3;

/// What gtsrun prints for these assignments; x has this reset value, all other flows 0.
fn flows(reset: i32, assignments: &[(usize, Expr)]) -> String {
    let number = |first| Variable::Number {
        low: 0,
        high: 9,
        first,
    };
    let boolean = Variable::Boolean { first: false };
    let run = |branches| {
        let model = Model {
            states: Vec::new(),
            flows: vec![number(reset), number(0), boolean, boolean],
            events: 0,
            transitions: Vec::new(),
            assertion: Instr::Block(branches),
        };
        gtsrun(&ENGINE, &model.encode(), b"")
    };
    let branches = assignments
        .iter()
        .map(|(flow, value)| Instr::Assign(*flow, value.clone()));
    let [forward, backward] = [branches.clone().collect(), branches.rev().collect()].map(run);
    assert_eq!(forward, backward);
    forward
}

fn four_either_way(condition: Expr) -> Expr {
    Expr::conditional(condition, number(4), number(4))
}

/// Starts that were refused before, or accepted with another count.
#[test]
fn starts_that_no_longer_wait() {
    let (x, y, z) = (Expr::Variable(X), Expr::Variable(Y), Expr::Variable(Z));
    let four = (X, four_either_way(y.clone()));
    // 30 before: x waited for y, and y for x.
    let is_four = (Y, equals(x.clone(), 4));
    assert_eq!(flows(1, &[four.clone(), is_four]), "ok 3 4 0 1 0\n");
    // 28 before.
    let failed = (X, four_either_way(failed_boolean()));
    assert_eq!(flows(1, from_ref(&failed)), "ok 2 4 0 0 0\n");
    // 29 before: w was 5 more than the reset value of x.
    let more = (W, Expr::binary(Operator::Plus, x.clone(), number(5)));
    assert_eq!(flows(9, &[four.clone(), more]), "ok 3 4 9 0 0\n");
    // 4 rounds before.
    let later = [(Y, z), (Z, Expr::Boolean(true))];
    let waiting = [from_ref(&four), &later].concat();
    assert_eq!(flows(1, &waiting), "ok 3 4 0 1 1\n");
    // 1 round before.
    assert_eq!(flows(4, from_ref(&four)), "ok 2 4 0 0 0\n");
    // 30 before: now y fails.
    let difference = Expr::binary(Operator::Minus, x, number(4));
    let quotient = Expr::binary(Operator::Div, number(1), difference);
    let fails = (Y, equals(quotient, 1));
    assert_eq!(flows(1, &[four, fails]), "no 28\n");
    // 28 before: now x gets two values.
    assert_eq!(flows(1, &[failed, (X, number(5))]), "no 30\n");
}

/// A failed condition waits for a branch; an unknown one may still choose.
#[test]
fn later_rounds() {
    let (w, y, z) = (Expr::Variable(W), Expr::Variable(Y), Expr::Variable(Z));
    let failed = Expr::conditional(failed_boolean(), w, number(4));
    // w is 4 or 5 from the second round on.
    let known_later = |value| {
        let chosen = Expr::conditional(z.clone(), number(value), number(9));
        [(X, failed.clone()), (W, chosen), (Z, Expr::Boolean(true))]
    };
    assert_eq!(flows(1, &known_later(4)), "ok 4 4 4 0 1\n");
    assert_eq!(flows(1, &known_later(5)), "no 28\n");
    // y gets two values in the second round: that comes before the 28 of the third.
    let two_values = [(Y, Expr::Boolean(false)), (Y, z.clone())];
    let in_second = [&known_later(5)[..], &two_values].concat();
    assert_eq!(flows(1, &in_second), "no 30\n");
    // Both branches fail, whatever y is.
    let either = Expr::conditional(y.clone(), zero_divisor(), zero_divisor());
    let both = [(X, either), (Y, z.clone()), (Z, Expr::Boolean(true))];
    assert_eq!(flows(1, &both), "no 28\n");
    // w gets two values in the first round.
    let two_numbers = [(W, number(1)), (W, number(2))];
    assert_eq!(flows(1, &[&both[..], &two_numbers].concat()), "no 30\n");
    // The branch that y does not choose may fail.
    let one = Expr::conditional(y, number(4), zero_divisor());
    let chosen = [(X, one), (Y, z), (Z, Expr::Boolean(true))];
    assert_eq!(flows(1, &chosen), "ok 4 4 0 1 1\n");
}

/// Equal nodes do not agree before they are known.
#[test]
fn equal_branches_that_are_unknown() {
    let (w, y) = (Expr::Variable(W), Expr::Variable(Y));
    let same = (X, Expr::conditional(y, w.clone(), w));
    let is_four = (Y, equals(Expr::Variable(X), 4));
    assert_eq!(flows(0, &[same.clone(), is_four.clone()]), "ok 1 0 0 0 0\n");
    let four = (W, number(4));
    assert_eq!(flows(0, &[same, is_four, four]), "ok 4 4 4 1 0\n");
}
