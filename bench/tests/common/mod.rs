//! What an expression is, and expressions that fail.

use bench::tree::{Expr, Operator};

/// What an expression is over variables that may be unknown.
#[derive(Clone, Copy, PartialEq, Debug)]
pub enum Evaluation {
    Unknown,
    Failed(Manner),
    Value(i32),
}

/// In which manner it failed.
#[derive(Clone, Copy, PartialEq, Debug)]
pub enum Manner {
    ZeroDivisor,
    TooLarge,
}

pub fn operation(operator: Operator, left: i32, right: i32) -> Expr {
    Expr::binary(operator, Expr::Number(left), Expr::Number(right))
}

pub fn zero_divisor() -> Expr {
    operation(Operator::Div, 1, 0)
}

pub fn too_large() -> Expr {
    operation(Operator::Times, 46_341, 46_341)
}

pub fn equals(number: Expr, value: i32) -> Expr {
    Expr::binary(Operator::EqualNumbers, number, Expr::Number(value))
}
