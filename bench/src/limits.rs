//! Models at the limits of a file, each with a list of calls, two texts, two joins and two logs.

use crate::calls::{
    Call, Handed, Join, Log, Store, Typed, CHECK, FIRE, FIRST_OUTSIDE, MARKS, PICK, START, UNDO,
    VALUE,
};
use crate::tree::{Expr, Instr, Model, Operator, Transition, Variable};
use crate::workloads;

pub struct AtLimit {
    pub name: &'static str,
    pub model: Model,
    /// What is lent to the calls.
    pub store: Store,
    pub calls: Vec<Call>,
}

/// A row of the table of calls, and its number.
type Numbered = (usize, usize);

/// The last transition fired, one that is none, and one that has the same low byte.
const LAST: [Numbered; 10] = [
    (START, 0),
    (MARKS, 0),
    (PICK, 0),
    (FIRE, 3_998),
    (FIRE, 3_999),
    (FIRE, 3_998 % 256),
    (MARKS, 0),
    (FIRE, 3_998),
    (UNDO, 0),
    (UNDO, 0),
];

/// The last variable and the number after it; steps.
const VARIABLES: [Numbered; 8] = [
    (START, 0),
    (VALUE, 3_999),
    (VALUE, 4_000),
    (FIRST_OUTSIDE, 0),
    (FIRE, 0),
    (FIRE, 1),
    (UNDO, 0),
    (PICK, 0),
];

const STEPS: [Numbered; 5] = [(CHECK, 0), (START, 0), (FIRE, 0), (FIRE, 0), (UNDO, 0)];

/// Calls that look at all that a run holds, and one that looks at its values alone.
const LOOKS: [Numbered; 6] = [
    (FIRST_OUTSIDE, 0),
    (MARKS, 0),
    (VALUE, 0),
    (PICK, 0),
    (FIRE, 0),
    (UNDO, 0),
];

pub fn all() -> Vec<AtLimit> {
    let chain = workloads::flows_alone(3_999, 0);
    let deep = workloads::inactive(12_000);
    vec![
        AtLimit::new("3,999 transitions", transitions(3_999), &LAST),
        AtLimit::new("room for one transition", transitions(3_998), &LAST),
        AtLimit::new("4,000 variables", most_variables(), &VARIABLES),
        AtLimit::new("widest values", widest_values(), &VARIABLES),
        AtLimit::new("4,000 rounds", chain, &VARIABLES),
        AtLimit::new("32 deep, 12,000 nodes", deep, &STEPS),
        AtLimit::new("12,000 nodes", workloads::large(12_000), &STEPS),
        AtLimit::new("65,535 events", most_events(), &STEPS),
        last_outside(),
        marked(3),
        marked(2),
        entered(258),
        entered(257),
    ]
}

/// Of 4,000 values the last is outside its ends.
fn last_outside() -> AtLimit {
    let mut values = vec![0; 4_000];
    values[3_999] = 2;
    let store = Store::new(&values, &[1; 2], &[1; 4], 1, &[9; 2]);
    AtLimit::with("last value", most_variables(), store, &LOOKS)
}

/// The last of 3,999 marks that the run holds is this one.
fn marked(mark: u8) -> AtLimit {
    let mut marks = vec![0; 3_999];
    marks[3_998] = mark;
    let store = Store::new(&[], &marks, &[3_998; 4], 3, &[9; 3_999]);
    AtLimit::with("last mark", transitions(3_999), store, &LOOKS)
}

/// Of the 258 transitions this one stands in the history; 258 is none, but its low byte is one.
fn entered(entry: u16) -> AtLimit {
    let store = Store::new(&[], &[0; 258], &[257, entry, 257], 2, &[9; 258]);
    AtLimit::with("history entry", transitions(258), store, &LOOKS)
}

impl AtLimit {
    /// With a run that is still to be started, of exactly the cells that are needed.
    fn new(name: &'static str, model: Model, calls: &[Numbered]) -> Self {
        let values = vec![7; model.variables().count()];
        let marks = vec![9; model.transitions.len()];
        let store = Store::new(&values, &marks, &[65_535; 4], 9, &marks);
        AtLimit::with(name, model, store, calls)
    }

    fn with(name: &'static str, model: Model, store: Store, calls: &[Numbered]) -> Self {
        let calls = calls.iter().map(|&(row, number)| Call { row, number });
        AtLimit {
            name,
            model,
            store,
            calls: calls.collect(),
        }
    }

    /// The last variable, and the number after it.
    pub fn texts(&self) -> [Typed; 2] {
        let variables = self.model.variables().count();
        [variables.saturating_sub(1), variables].map(|variable| {
            let text = format!("v{variable}");
            Typed::new(text.as_bytes(), &[7; 400], &[7; 400], 9)
        })
    }

    /// The last transition alone, and the first one or the last one.
    pub fn joins(&self) -> [Join; 2] {
        let last = self.model.transitions.len().saturating_sub(1);
        let out = [7; 60_010];
        [
            Join::new(&[last], &[], &out, 9),
            Join::new(&[], &[0, last], &out, 9),
        ]
    }

    /// Three rows of first values, and then 1 or 2 as the last value. Both expressions read the last variable, which is a
    /// Boolean or a number.
    pub fn logs(&self) -> [Log; 2] {
        let last = self.model.variables().last();
        let variable = Expr::Variable(self.model.variables().count().saturating_sub(1));
        let [one, two] = [1, 2].map(Expr::Number);
        let (condition, number) = if last.is_some_and(Variable::is_boolean) {
            (variable.clone(), Expr::conditional(variable, two, one))
        } else {
            let is_two = Expr::binary(Operator::EqualNumbers, variable.clone(), two);
            (is_two, variable)
        };
        let expressions = [condition, number].map(|expr| Handed::of(&expr.nodes()));
        let firsts = self.model.variables().map(Variable::first);
        let mut rows: Vec<i32> = firsts.collect::<Vec<i32>>().repeat(3);
        [1, 2].map(|value| {
            if let Some(cell) = rows.last_mut() {
                *cell = value;
            }
            Log::new(expressions.clone(), 2, &rows, &[7; 9], 9)
        })
    }
}

fn transition(event: u16, guard: bool, action: Instr) -> Transition {
    Transition {
        event,
        guard: Expr::Boolean(guard),
        action,
    }
}

/// So many transitions of three nodes each: the last can be fired. 3,999 are the most, of 11,998 nodes.
pub fn transitions(count: u16) -> Model {
    Model {
        states: Vec::new(),
        flows: Vec::new(),
        events: count,
        transitions: (0..count)
            .map(|place| transition(place, place + 1 == count, Instr::Skip))
            .collect(),
        assertion: Instr::Skip,
    }
}

/// 2,000 states, and as many flows that take their values. Two transitions: one negates the last state, the other sets the
/// first.
pub fn most_variables() -> Model {
    let boolean = Variable::Boolean { first: false };
    let negated = Expr::Variable(1_999).negated();
    Model {
        states: vec![boolean; 2_000],
        flows: vec![boolean; 2_000],
        events: 1,
        transitions: vec![
            transition(0, true, Instr::Assign(1_999, negated)),
            transition(0, true, Instr::Assign(0, Expr::Boolean(true))),
        ],
        assertion: Instr::Block(
            (0..2_000)
                .map(|state| Instr::Assign(2_000 + state, Expr::Variable(state)))
                .collect(),
        ),
    }
}

/// 3,999 states of the least number, a sign and ten digits each, and a Boolean: there is no node for a further number.
pub fn widest_values() -> Model {
    let least = Variable::Number {
        low: i32::MIN,
        high: i32::MAX,
        first: i32::MIN,
    };
    let mut states = vec![least; 3_999];
    states.push(Variable::Boolean { first: true });
    Model {
        states,
        flows: Vec::new(),
        events: 0,
        transitions: Vec::new(),
        assertion: Instr::Skip,
    }
}

/// Transitions of the first and of the last of 65,535 events.
pub fn most_events() -> Model {
    Model {
        states: Vec::new(),
        flows: Vec::new(),
        events: 65_535,
        transitions: vec![
            transition(65_534, true, Instr::Skip),
            transition(0, true, Instr::Skip),
        ],
        assertion: Instr::Skip,
    }
}
