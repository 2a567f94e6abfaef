//! What an expression evaluates to over a valuation that may leave variables unknown.

use super::model::{Expr, ExprId, Expression, Model, Operator, Tree};

/// A Boolean value is 0 or 1.
#[derive(Clone, Copy, Debug, PartialEq, Eq)]
pub enum Evaluation {
    Unknown,
    Failed(Failure),
    Value(i32),
}

/// In which manner an expression failed. Where operands failed in both, the first one here wins.
#[derive(Clone, Copy, Debug, PartialEq, Eq, PartialOrd, Ord)]
pub enum Failure {
    ZeroDivisor,
    /// A number beyond 32 bits.
    TooLarge,
}

use Evaluation::{Failed, Unknown, Value};

/// Gives each variable its value, or none where it is unknown.
pub trait Valuation {
    fn get(&self, variable: usize) -> Option<i32>;
}

impl Valuation for [i32] {
    fn get(&self, variable: usize) -> Option<i32> {
        Some(self[variable])
    }
}

impl Valuation for [Option<i32>] {
    fn get(&self, variable: usize) -> Option<i32> {
        self[variable]
    }
}

impl Model {
    pub fn evaluate<V: Valuation + ?Sized>(&self, id: ExprId, valuation: &V) -> Evaluation {
        self.tree.evaluate(id, valuation)
    }
}

impl Expression {
    pub fn evaluate<V: Valuation + ?Sized>(&self, valuation: &V) -> Evaluation {
        self.tree.evaluate(self.top, valuation)
    }

    /// Its value over variables that are all known, or none if it failed: for very many rows, without the manner.
    pub fn value(&self, values: &[i32]) -> Option<i32> {
        self.tree.value(self.top, values)
    }
}

impl Tree {
    /// As in `evaluate`. A leaf takes no call.
    #[inline(always)]
    fn value(&self, id: ExprId, values: &[i32]) -> Option<i32> {
        match self.expr(id) {
            Expr::Constant(value) => Some(value),
            Expr::Variable(variable) => Some(values[variable as usize]),
            operation => self.result(operation, values),
        }
    }

    fn result(&self, operation: Expr, values: &[i32]) -> Option<i32> {
        match operation {
            Expr::Constant(_) | Expr::Variable(_) => unreachable!("a leaf is no operation"),
            Expr::Not(operand) => Some(1 - self.value(operand, values)?),
            Expr::Binary(Operator::And, left, right) => self.decided(left, right, 0, values),
            Expr::Binary(Operator::Or, left, right) => self.decided(left, right, 1, values),
            Expr::Binary(operator, left, right) => {
                let (left, right) = (self.value(left, values)?, self.value(right, values)?);
                match calculate(operator, left, right) {
                    Value(value) => Some(value),
                    _ => None,
                }
            }
            Expr::Conditional(condition, chosen, other) => match self.value(condition, values) {
                Some(0) => self.value(other, values),
                Some(_) => self.value(chosen, values),
                None => {
                    let chosen = self.value(chosen, values)?;
                    self.value(other, values).filter(|&other| other == chosen)
                }
            },
        }
    }

    fn decided(&self, left: ExprId, right: ExprId, decisive: i32, values: &[i32]) -> Option<i32> {
        let left = self.value(left, values);
        if left == Some(decisive) {
            return left;
        }
        let right = self.value(right, values);
        if right == Some(decisive) {
            return right;
        }
        left.and(right)
    }

    fn evaluate<V: Valuation + ?Sized>(&self, id: ExprId, valuation: &V) -> Evaluation {
        match self.expr(id) {
            Expr::Constant(value) => Value(value),
            Expr::Variable(variable) => valuation.get(variable as usize).map_or(Unknown, Value),
            Expr::Not(operand) => match self.evaluate(operand, valuation) {
                Value(value) => Value(1 - value),
                other => other,
            },
            Expr::Binary(Operator::And, left, right) => self.decide(left, right, 0, valuation),
            Expr::Binary(Operator::Or, left, right) => self.decide(left, right, 1, valuation),
            Expr::Binary(operator, left, right) => {
                let left = self.evaluate(left, valuation);
                let right = self.evaluate(right, valuation);
                both_known(left, right, |left, right| calculate(operator, left, right))
            }
            Expr::Conditional(condition, chosen, other) => {
                match self.evaluate(condition, valuation) {
                    Value(0) => self.evaluate(other, valuation),
                    Value(_) => self.evaluate(chosen, valuation),
                    condition => undecided(
                        condition,
                        self.evaluate(chosen, valuation),
                        self.evaluate(other, valuation),
                    ),
                }
            }
        }
    }

    /// `and` (decided by 0) and `or` (decided by 1): either operand decides.
    fn decide<V: Valuation + ?Sized>(
        &self,
        left: ExprId,
        right: ExprId,
        decisive: i32,
        valuation: &V,
    ) -> Evaluation {
        let left = self.evaluate(left, valuation);
        if left == Value(decisive) {
            return left;
        }
        let right = self.evaluate(right, valuation);
        if right == Value(decisive) {
            return right;
        }
        both_known(left, right, |_, _| Value(1 - decisive))
    }
}

/// What an operator gives for two values. Without these, unknown comes before failed.
fn both_known(
    left: Evaluation,
    right: Evaluation,
    operate: impl FnOnce(i32, i32) -> Evaluation,
) -> Evaluation {
    match (left, right) {
        (Value(left), Value(right)) => operate(left, right),
        (Unknown, _) | (_, Unknown) => Unknown,
        (Failed(one), Failed(two)) => Failed(one.min(two)),
        (Failed(failure), _) | (_, Failed(failure)) => Failed(failure),
    }
}

/// A conditional whose condition is unknown or failed: the value that both branches have; else unknown if a branch is;
/// else as the condition.
fn undecided(condition: Evaluation, one: Evaluation, two: Evaluation) -> Evaluation {
    match (one, two) {
        (Value(_), Value(_)) if one == two => one,
        (Unknown, _) | (_, Unknown) => Unknown,
        _ => condition,
    }
}

fn calculate(operator: Operator, left: i32, right: i32) -> Evaluation {
    let number = match operator {
        Operator::And => Some(left & right),
        Operator::Or => Some(left | right),
        Operator::Equal => Some(i32::from(left == right)),
        Operator::Less => Some(i32::from(left < right)),
        Operator::LessOrEqual => Some(i32::from(left <= right)),
        Operator::Plus => left.checked_add(right),
        Operator::Minus => left.checked_sub(right),
        Operator::Times => left.checked_mul(right),
        Operator::Div | Operator::Mod if right == 0 => return Failed(Failure::ZeroDivisor),
        Operator::Div => left.checked_div(right),
        // The least number mod -1 is 0.
        Operator::Mod => Some(left.wrapping_rem(right)),
    };
    number.map_or(Failed(Failure::TooLarge), Value)
}
