//! Random expressions and instructions.

use crate::random::Random;
use crate::tree::{Expr, Instr, Operator, Variable};

/// Writes expressions and instructions over some variables.
pub struct Writer<'r> {
    pub random: &'r mut Random,
    /// States first.
    pub variables: Vec<Variable>,
    pub states: usize,
    /// How many values in a hundred may fail, leave their ends or conflict.
    pub wild: usize,
    /// Whether constants are any 32-bit numbers, or small ones.
    pub ends: bool,
}

impl Writer<'_> {
    fn is_wild(&mut self) -> bool {
        self.random.chance(self.wild, 100)
    }

    fn constant(&mut self) -> i32 {
        if self.ends {
            self.random.number()
        } else {
            self.random.within(-3, 7)
        }
    }

    /// One of the readable variables of this type.
    fn readable(&mut self, readable: &[usize], boolean: bool) -> Option<usize> {
        let fitting: Vec<usize> = readable
            .iter()
            .copied()
            .filter(|&variable| self.variables[variable].is_boolean() == boolean)
            .collect();
        (!fitting.is_empty()).then(|| *self.random.one(&fitting))
    }

    /// An expression of either type, at most `depth` deep.
    pub fn expression(&mut self, readable: &[usize], boolean: bool, depth: usize) -> Expr {
        if boolean {
            self.boolean(readable, depth)
        } else {
            self.number(readable, depth)
        }
    }

    pub fn boolean(&mut self, readable: &[usize], depth: usize) -> Expr {
        if depth <= 1 || self.random.chance(1, 3) {
            let constant = self.random.chance(1, 6);
            return match self.readable(readable, true) {
                Some(variable) if !constant => Expr::Variable(variable),
                _ => Expr::Boolean(self.random.coin()),
            };
        }
        use Operator::*;
        let below = depth - 1;
        match self.random.below(14) {
            0 | 1 => self.boolean(readable, below).negated(),
            2..=4 => self.conditional(readable, true, below),
            5..=9 => {
                let operator = *self.random.one(&[And, And, Or, Or, EqualBooleans]);
                let left = self.boolean(readable, below);
                Expr::binary(operator, left, self.boolean(readable, below))
            }
            _ => {
                let operator = *self.random.one(&[EqualNumbers, Less, LessOrEqual]);
                let left = self.number(readable, below);
                Expr::binary(operator, left, self.number(readable, below))
            }
        }
    }

    fn number(&mut self, readable: &[usize], depth: usize) -> Expr {
        if depth <= 1 || self.random.chance(1, 3) {
            let constant = self.random.chance(1, 3);
            return match self.readable(readable, false) {
                Some(variable) if !constant => Expr::Variable(variable),
                _ => Expr::Number(self.constant()),
            };
        }
        use Operator::*;
        let below = depth - 1;
        if self.random.chance(1, 4) {
            return self.conditional(readable, false, below);
        }
        if (self.ends && self.random.chance(1, 4)) || self.is_wild() {
            return match self.random.chance(1, 3) {
                true => failed(self.random),
                false => edge(self.random),
            };
        }
        let operator = *self
            .random
            .one(&[Plus, Plus, Minus, Minus, Times, Div, Mod]);
        let left = self.number(readable, below);
        Expr::binary(operator, left, self.number(readable, below))
    }

    /// An if-then-else whose parts are at most `below` deep; mostly its branches agree.
    fn conditional(&mut self, readable: &[usize], boolean: bool, below: usize) -> Expr {
        if self.random.chance(2, 3) {
            let branch = self.expression(readable, boolean, below - 1);
            return self.agreeing(branch, boolean, below);
        }
        let condition = if self.is_wild() {
            self.any_condition(below)
        } else {
            self.boolean(readable, below)
        };
        let chosen = self.expression(readable, boolean, below);
        Expr::conditional(condition, chosen, self.expression(readable, boolean, below))
    }

    /// An if-then-else whose branches are this one, at most `below` - 1 deep or a leaf, and one of the same value: so its
    /// condition may be any.
    fn agreeing(&mut self, branch: Expr, boolean: bool, below: usize) -> Expr {
        let condition = self.any_condition(below);
        let again = if below < 2 || self.random.coin() {
            branch.clone()
        } else {
            self.same_value(branch.clone(), boolean)
        };
        if self.random.coin() {
            Expr::conditional(condition, branch, again)
        } else {
            Expr::conditional(condition, again, branch)
        }
    }

    /// A condition over all variables, whichever may be read: it often waits for a flow, and at times fails.
    fn any_condition(&mut self, depth: usize) -> Expr {
        if depth >= 3 && self.random.chance(1, 3) {
            return edge_condition(self.random);
        }
        let flows: Vec<usize> = (self.states..self.variables.len()).collect();
        match self.readable(&flows, true) {
            Some(flow) if self.random.coin() => Expr::Variable(flow),
            _ => {
                let all: Vec<usize> = (0..self.variables.len()).collect();
                self.boolean(&all, depth.min(3))
            }
        }
    }

    /// An expression of the same value by other nodes, one level deeper.
    fn same_value(&mut self, expr: Expr, boolean: bool) -> Expr {
        use Operator::*;
        let (operator, neutral) = match (boolean, self.random.below(3)) {
            (true, 0) => (EqualBooleans, Expr::Boolean(true)),
            (true, 1) => (And, Expr::Boolean(true)),
            (true, _) => (Or, Expr::Boolean(false)),
            (false, 0) => (Minus, Expr::Number(0)),
            (false, 1) => (Times, Expr::Number(1)),
            (false, _) => (Plus, Expr::Number(0)),
        };
        if operator.symmetric() && self.random.coin() {
            Expr::binary(operator, neutral, expr)
        } else {
            Expr::binary(operator, expr, neutral)
        }
    }

    /// The readable numbers that never leave these ends.
    fn inside(&self, readable: &[usize], (low, high): (i32, i32)) -> Vec<usize> {
        let is_inside = |&other: &usize| {
            let (least, most) = self.variables[other].ends();
            !self.variables[other].is_boolean() && low <= least && most <= high
        };
        readable.iter().copied().filter(is_inside).collect()
    }

    /// An expression for this variable, mostly within its ends.
    fn value_for(&mut self, target: usize, readable: &[usize], depth: usize) -> Expr {
        let variable = self.variables[target];
        if variable.is_boolean() || self.is_wild() {
            return self.expression(readable, variable.is_boolean(), depth);
        }
        let (low, high) = variable.ends();
        let inside = self.inside(readable, (low, high));
        let constant = Expr::Number(match self.random.below(4) {
            0 => low,
            1 => high,
            _ => self.random.within(low, high),
        });
        match self.random.below(6) {
            0 | 1 if !inside.is_empty() => Expr::Variable(*self.random.one(&inside)),
            2 if !inside.is_empty() && depth >= 3 => {
                // The next number, or the low end after the high one.
                let other = Expr::Variable(*self.random.one(&inside));
                let below = Expr::binary(Operator::Less, other.clone(), Expr::Number(high));
                let next = Expr::binary(Operator::Plus, other, Expr::Number(1));
                Expr::conditional(below, next, Expr::Number(low))
            }
            3 if depth >= 3 => {
                let value = self.value_for(target, readable, depth - 2);
                if self.random.coin() {
                    return self.agreeing(value, false, depth - 1);
                }
                Expr::conditional(self.boolean(readable, depth - 1), value, constant)
            }
            4 if depth >= 5 => {
                let inner = self.number(readable, depth.min(5) - 3);
                let above = Expr::binary(Operator::LessOrEqual, Expr::Number(low), inner.clone());
                let below = Expr::binary(Operator::LessOrEqual, inner.clone(), Expr::Number(high));
                let both = Expr::binary(Operator::And, above, below);
                Expr::conditional(both, inner, constant)
            }
            _ => constant,
        }
    }

    /// An action that mostly assigns each state once.
    pub fn action(&mut self, readable: &[usize], depth: usize) -> Instr {
        let mut free: Vec<usize> = (0..self.states).collect();
        self.random.shuffle(&mut free);
        self.action_over(&mut free, readable, depth)
    }

    fn action_over(&mut self, free: &mut Vec<usize>, readable: &[usize], depth: usize) -> Instr {
        if self.states == 0 || depth < 2 || self.random.chance(1, 20) {
            return Instr::Skip;
        }
        match self.random.below(10) {
            0 | 1 => Instr::when(
                self.boolean(readable, (depth - 1).min(4)),
                self.action_over(free, readable, depth - 1),
            ),
            2..=4 => {
                let branches = self.random.below(5);
                Instr::Block(
                    (0..branches)
                        .map(|_| self.action_over(free, readable, depth - 1))
                        .collect(),
                )
            }
            _ => {
                let target = match free.pop() {
                    Some(state) => state,
                    None if self.is_wild() => self.random.below(self.states),
                    None => return Instr::Skip,
                };
                if self.is_wild() {
                    free.push(target);
                }
                let value = self.value_for(target, readable, (depth - 1).min(6));
                Instr::Assign(target, value)
            }
        }
    }

    /// Assignments to the flows, each from states and from flows before it in some order.
    pub fn ordered_assertion(&mut self, depth: usize) -> Instr {
        let mut order: Vec<usize> = (self.states..self.variables.len()).collect();
        self.random.shuffle(&mut order);
        let mut readable: Vec<usize> = (0..self.states).collect();
        let mut branches = Vec::new();
        for flow in order {
            let size = self.random.between(2, 6).min(depth - 2);
            let mut certain = true;
            match self.random.below(10) {
                0 => certain = false,
                1 => {
                    let condition = self.boolean(&readable, 3);
                    let value = self.value_for(flow, &readable, size);
                    branches.push(Instr::when(condition, Instr::Assign(flow, value)));
                    certain = false;
                }
                2 | 3 => {
                    let condition = self.boolean(&readable, 3);
                    let chosen = self.value_for(flow, &readable, size);
                    let other = self.value_for(flow, &readable, size);
                    let opposite = condition.clone().negated();
                    branches.push(Instr::when(condition, Instr::Assign(flow, chosen)));
                    branches.push(Instr::when(opposite, Instr::Assign(flow, other)));
                }
                4 => {
                    let value = self.value_for(flow, &readable, size);
                    branches.push(Instr::Assign(flow, value.clone()));
                    branches.push(Instr::Assign(flow, value));
                }
                _ => {
                    let value = self.value_for(flow, &readable, size);
                    branches.push(Instr::Assign(flow, value));
                }
            }
            if certain || self.is_wild() {
                readable.push(flow);
            }
        }
        self.random.shuffle(&mut branches);
        self.grouped(branches)
    }

    /// Instructions over any flows, in any nesting.
    pub fn any_assertion(&mut self, depth: usize) -> Instr {
        let all: Vec<usize> = (0..self.variables.len()).collect();
        let flows = all.len() - self.states;
        if depth < 2 || self.random.chance(1, 12) {
            return Instr::Skip;
        }
        match self.random.below(10) {
            0 | 1 => Instr::when(
                self.boolean(&all, (depth - 1).min(4)),
                self.any_assertion(depth - 1),
            ),
            2..=5 => {
                let branches = self.random.below(5);
                Instr::Block(
                    (0..branches)
                        .map(|_| self.any_assertion(depth - 1))
                        .collect(),
                )
            }
            _ if flows > 0 => {
                let flow = self.states + self.random.below(flows);
                let value = self.value_for(flow, &all, (depth - 1).min(5));
                Instr::Assign(flow, value)
            }
            _ => Instr::Block(Vec::new()),
        }
    }

    /// These instructions in blocks, some of them nested.
    fn grouped(&mut self, mut branches: Vec<Instr>) -> Instr {
        for _ in 0..self.random.below(3) {
            if branches.len() < 2 {
                break;
            }
            let first = self.random.below(branches.len());
            let end = self.random.between(first, branches.len() - 1);
            let inner: Vec<Instr> = branches.drain(first..=end).collect();
            let place = self.random.between(0, branches.len());
            branches.insert(place, Instr::Block(inner));
        }
        if branches.len() == 1 && self.random.coin() {
            return branches.remove(0);
        }
        Instr::Block(branches)
    }
}

/// An operation at an edge of its definition: some of these fail.
pub fn edge(random: &mut Random) -> Expr {
    use Operator::*;
    const EDGES: [(Operator, i32, i32); 16] = [
        (Div, 1, 0),
        (Mod, 1, 0),
        (Mod, 0, 0),
        (Div, i32::MIN, -1),
        (Mod, i32::MIN, -1),
        (Div, 7, -2),
        (Mod, 7, -2),
        (Div, -7, 2),
        (Mod, -7, 2),
        (Times, 46_340, 46_340),
        (Times, 46_341, 46_341),
        (Times, i32::MIN, -1),
        (Plus, i32::MAX, 1),
        (Plus, i32::MIN, i32::MAX),
        (Minus, i32::MIN, 1),
        (Minus, -1, i32::MAX),
    ];
    let &(operator, left, right) = random.one(&EDGES);
    Expr::binary(operator, Expr::Number(left), Expr::Number(right))
}

/// An operation that fails, in either manner, or over operands of which one or both fail.
pub fn failed(random: &mut Random) -> Expr {
    use Operator::*;
    const ZERO_DIVISORS: [(Operator, i32, i32); 3] = [(Div, 1, 0), (Mod, 1, 0), (Div, 0, 0)];
    const TOO_LARGE: [(Operator, i32, i32); 5] = [
        (Plus, i32::MAX, 1),
        (Minus, i32::MIN, 1),
        (Times, 46_341, 46_341),
        (Times, 65_536, -65_536),
        (Div, i32::MIN, -1),
    ];
    if random.chance(1, 6) {
        let operator = *random.one(&[Plus, Minus, Times, Div, Mod]);
        let one = failed(random);
        let two = if random.coin() {
            failed(random)
        } else {
            edge(random)
        };
        return match random.coin() {
            true => Expr::binary(operator, one, two),
            false => Expr::binary(operator, two, one),
        };
    }
    let &(operator, left, right) = match random.coin() {
        true => random.one(&ZERO_DIVISORS),
        false => random.one(&TOO_LARGE),
    };
    Expr::binary(operator, Expr::Number(left), Expr::Number(right))
}

/// Whether an operation at an edge is below 0.
pub fn edge_condition(random: &mut Random) -> Expr {
    Expr::binary(Operator::Less, edge(random), Expr::Number(0))
}
