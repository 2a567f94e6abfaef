//! Models of very many variables or transitions, each of a few nodes.

use super::MAX_NODES;
use crate::random::Random;
use crate::tree::{Expr, Instr, Model, Transition, Variable};

/// S + F: near a byte's limit, and up to the largest.
const VARIABLES: [usize; 8] = [2, 255, 256, 257, 510, 1_000, 3_999, 4_000];
/// T: likewise, where the nodes allow it.
const TRANSITIONS: [usize; 7] = [0, 2, 255, 256, 257, 1_000, 3_999];

/// Boolean variables, transitions with guards of one node, flows that take the values of states and of other flows.
pub fn crowded(random: &mut Random) -> Model {
    let variables = *random.one(&VARIABLES);
    // The assertion's block is a node too, and a transition has three at least.
    let room = MAX_NODES - 1 - variables;
    let transitions = (*random.one(&TRANSITIONS)).min(room / 3);
    let mut crowd = Crowd {
        variables,
        states: match random.below(4) {
            0 => variables,
            1 => 1,
            _ => random.between(1, variables),
        },
        room: room - 3 * transitions,
        random,
    };
    let events = *crowd.random.one(&[1, 255, 256, 4_000, 65_535]);
    let transitions = (0..transitions).map(|_| crowd.transition(events)).collect();
    let assertion = Instr::Block(crowd.assignments());
    let mut variables: Vec<Variable> = (0..variables).map(|_| crowd.variable()).collect();
    let flows = variables.split_off(crowd.states);
    Model {
        states: variables,
        flows,
        events,
        transitions,
        assertion,
    }
}

struct Crowd<'r> {
    random: &'r mut Random,
    variables: usize,
    /// One at least.
    states: usize,
    /// Nodes that are still free.
    room: usize,
}

impl Crowd<'_> {
    fn variable(&mut self) -> Variable {
        let first = self.random.coin();
        Variable::Boolean { first }
    }

    fn transition(&mut self, events: u16) -> Transition {
        let any = Expr::Variable(self.random.below(self.variables));
        Transition {
            event: self.random.below(events.into()) as u16,
            guard: match self.random.below(4) {
                0 => any,
                1 => Expr::Boolean(false),
                _ => Expr::Boolean(true),
            },
            action: self.action(),
        }
    }

    /// An assignment, where there is room for more than a skip.
    fn action(&mut self) -> Instr {
        if self.room < 2 || self.random.chance(1, 4) {
            return Instr::Skip;
        }
        self.room -= 2;
        let state = self.random.below(self.states);
        let from = self.random.below(self.variables);
        Instr::Assign(state, Expr::Variable(from).negated())
    }

    /// Some flows take the values of states and of flows before them.
    fn assignments(&mut self) -> Vec<Instr> {
        let flows = self.variables - self.states;
        let most = flows.min(self.room / 2);
        let count = *self.random.one(&[most, most, most.min(40), 0]);
        let mut branches: Vec<Instr> = (self.states..self.states + count)
            .map(|flow| Instr::Assign(flow, Expr::Variable(self.random.below(flow))))
            .collect();
        self.random.shuffle(&mut branches);
        branches
    }
}
