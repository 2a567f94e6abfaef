//! A whole shop in one model: small models side by side.

use super::shapes::plain;
use super::{Shape, MAX_NODES, MAX_VARIABLES};
use crate::random::Random;
use crate::tree::{Expr, Instr, Model};

/// One to three small models, each again and again, up to so many nodes or variables as are wanted.
pub fn shop(random: &mut Random) -> Model {
    let kinds: Vec<Model> = (0..random.between(1, 3))
        .map(|_| plain(random, Shape::Ordered))
        .collect();
    let mut room = *random.one(&[1_024, 2_000, 4_000, MAX_NODES, MAX_NODES]) - 1;
    let mut free = *random.one(&[256, 600, MAX_VARIABLES, MAX_VARIABLES]);
    let mut counters = Vec::new();
    loop {
        let counter = random.one(&kinds);
        let (nodes, variables) = (counter.nodes().len(), counter.variables().count());
        if nodes > room || variables > free {
            return side_by_side(&counters);
        }
        room -= nodes;
        free -= variables;
        counters.push(counter);
    }
}

/// The states of all of them, then the flows; their transitions and events one after another.
fn side_by_side(models: &[&Model]) -> Model {
    let all_states: usize = models.iter().map(|model| model.states.len()).sum();
    let mut shop = Model {
        states: Vec::new(),
        flows: Vec::new(),
        events: 0,
        transitions: Vec::new(),
        assertion: Instr::Skip,
    };
    let mut branches = Vec::new();
    for &model in models {
        let places = Places {
            states: model.states.len(),
            first_state: shop.states.len(),
            first_flow: all_states + shop.flows.len(),
        };
        for mut transition in model.transitions.iter().cloned() {
            transition.event += shop.events;
            places.move_expr(&mut transition.guard);
            places.move_instr(&mut transition.action);
            shop.transitions.push(transition);
        }
        let mut assertion = model.assertion.clone();
        places.move_instr(&mut assertion);
        branches.push(assertion);
        shop.states.extend(&model.states);
        shop.flows.extend(&model.flows);
        shop.events += model.events;
    }
    shop.assertion = Instr::Block(branches);
    shop
}

/// Where the variables of a model with so many states come to stand.
struct Places {
    states: usize,
    first_state: usize,
    first_flow: usize,
}

impl Places {
    fn variable(&self, variable: &mut usize) {
        *variable = match variable.checked_sub(self.states) {
            None => self.first_state + *variable,
            Some(flow) => self.first_flow + flow,
        };
    }

    fn move_expr(&self, expr: &mut Expr) {
        match expr {
            Expr::Number(_) | Expr::Boolean(_) => {}
            Expr::Variable(variable) => self.variable(variable),
            Expr::Not(operand) => self.move_expr(operand),
            Expr::Binary(_, left, right) => {
                self.move_expr(left);
                self.move_expr(right);
            }
            Expr::Conditional(condition, chosen, other) => {
                self.move_expr(condition);
                self.move_expr(chosen);
                self.move_expr(other);
            }
        }
    }

    fn move_instr(&self, instr: &mut Instr) {
        match instr {
            Instr::Skip => {}
            Instr::Assign(target, value) => {
                self.variable(target);
                self.move_expr(value);
            }
            Instr::When(condition, body) => {
                self.move_expr(condition);
                self.move_instr(body);
            }
            Instr::Block(branches) => {
                for branch in branches {
                    self.move_instr(branch);
                }
            }
        }
    }
}
