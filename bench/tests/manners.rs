//! A8: a refusal tells whether a divisor was 0 (24, 25, 28) or a number beyond 32 bits (38, 39, 40). If-then-else is in
//! conditionals.rs.

mod common;
mod first_round;

use bench::calls::{Call, Store, FIRE, PICK, START, UNDO};
use bench::random::Random;
use bench::reference::ENGINE;
use bench::tree::{Expr, Instr, Model, Operator, Transition, Variable};

use common::{equals, operation, too_large, zero_divisor, Evaluation, Manner};
use first_round::{
    assert_in_first_round, booleans, conflict, numbers, outside, start, FLOWS, LATER, STATES,
    WAITING,
};
use Evaluation::{Failed, Unknown, Value};
use Manner::{TooLarge, ZeroDivisor};
use Operator::*;

fn perform(file: &[u8], store: &mut Store, row: usize, number: usize) -> u8 {
    Call { row, number }.perform(&ENGINE, file, store)
}

/// A state that tells whether the assertion reads an expression, a number as state and as flow, and four transitions: this
/// expression in a guard, assigned, in a condition, and in the assertion.
fn places(expr: &Expr, is_read: bool) -> Model {
    let number = Variable::Number {
        low: i32::MIN,
        high: i32::MAX,
        first: 0,
    };
    let always = |action| (Expr::Boolean(true), action);
    let transitions = [
        (equals(expr.clone(), 1), Instr::Skip),
        always(Instr::Assign(1, expr.clone())),
        always(Instr::when(equals(expr.clone(), 1), Instr::Skip)),
        always(Instr::Assign(0, Expr::Boolean(true))),
    ];
    Model {
        states: vec![Variable::Boolean { first: is_read }, number],
        flows: vec![number],
        events: 1,
        transitions: transitions
            .map(|(guard, action)| Transition {
                event: 0,
                guard,
                action,
            })
            .into(),
        assertion: Instr::when(Expr::Variable(0), Instr::Assign(2, expr.clone())),
    }
}

#[test]
fn operations_in_every_place() {
    let of_zero_divisor = [24, 25, 25, 28];
    let of_too_large = [38, 39, 39, 40];
    for (operator, left, right, numbers) in [
        (Plus, i32::MAX, 1, of_too_large),
        (Plus, i32::MIN, -1, of_too_large),
        (Minus, i32::MIN, 1, of_too_large),
        (Minus, 0, i32::MIN, of_too_large),
        (Times, 46_341, 46_341, of_too_large),
        (Times, i32::MIN, -1, of_too_large),
        (Div, i32::MIN, -1, of_too_large),
        (Div, i32::MIN, 0, of_zero_divisor),
        (Div, 0, 0, of_zero_divisor),
        (Mod, i32::MIN, 0, of_zero_divisor),
        (Mod, 0, 0, of_zero_divisor),
    ] {
        let expr = operation(operator, left, right);
        let file = places(&expr, false).encode();
        let mut store = Store::new(&[9; 3], &[9; 4], &[9; 2], 9, &[]);
        assert_eq!(perform(&file, &mut store, START, 0), 0, "{expr:?}");
        assert_eq!(store.marks.cells(), [2, 1, 1, 1], "{expr:?}");
        assert_eq!(perform(&file, &mut store, PICK, 0), 0, "{expr:?}");
        assert_eq!(store.transition.get(), 1, "{expr:?}");
        let answers = [0, 1, 2, 3].map(|number| perform(&file, &mut store, FIRE, number));
        assert_eq!(answers, numbers, "{expr:?}");
        assert_eq!(start(&places(&expr, true)).0, Err(numbers[3]), "{expr:?}");
        // Firing them again, or starting, is refused by 31 whatever the reason is.
        for transition in 0..4 {
            let mut store = Store::new(&[0; 3], &[0; 4], &[transition; 2], 2, &[]);
            assert_eq!(perform(&file, &mut store, UNDO, 0), 31, "{expr:?}");
        }
        let file = places(&expr, true).encode();
        let mut store = Store::new(&[0; 3], &[0; 4], &[0], 1, &[]);
        assert_eq!(perform(&file, &mut store, UNDO, 0), 31, "{expr:?}");
    }
}

/// What an operator gives where its operands are not both values and neither decides.
fn without_values(left: Evaluation, right: Evaluation) -> Option<Evaluation> {
    let mut order = [Unknown, Failed(ZeroDivisor), Failed(TooLarge)].into_iter();
    order.find(|found| [left, right].contains(found))
}

/// What each operator of Booleans gives.
fn of_booleans(left: Evaluation, right: Evaluation) -> [(Operator, Evaluation); 3] {
    let decided = |decisive| [left, right].contains(&decisive).then_some(decisive);
    let neither = without_values(left, right);
    let equal = Value((left == right).into());
    [
        (And, decided(Value(0)).or(neither).unwrap_or(Value(1))),
        (Or, decided(Value(1)).or(neither).unwrap_or(Value(0))),
        (EqualBooleans, neither.unwrap_or(equal)),
    ]
}

/// Every two of these.
fn pairs<T>(all: &[T]) -> impl Iterator<Item = (&T, &T)> {
    all.iter()
        .flat_map(move |one| all.iter().map(move |two| (one, two)))
}

#[test]
fn operands_of_either_manner() {
    for ((left, one), (right, two)) in pairs(&numbers()) {
        let Some(wanted) = without_values(*one, *two) else {
            continue;
        };
        let relations = [EqualNumbers, Less, LessOrEqual];
        for operator in relations.into_iter().chain([Plus, Minus, Times, Div, Mod]) {
            let expr = Expr::binary(operator, left.clone(), right.clone());
            assert_in_first_round(&expr, relations.contains(&operator), wanted);
        }
    }
    for ((left, one), (right, two)) in pairs(&booleans()) {
        for (operator, wanted) in of_booleans(*one, *two) {
            let expr = Expr::binary(operator, left.clone(), right.clone());
            assert_in_first_round(&expr, true, wanted);
        }
    }
}

/// The faults of an action or of a round, each with its place in the order of the numbers.
fn faults(first: usize) -> [(usize, Instr); 6] {
    [
        (0, Instr::Assign(first, zero_divisor())),
        (0, Instr::when(equals(zero_divisor(), 1), Instr::Skip)),
        (1, Instr::Assign(first, too_large())),
        (1, Instr::when(equals(too_large(), 1), Instr::Skip)),
        (2, outside(first)),
        (3, conflict(first)),
    ]
}

const OF_ACTION: [u8; 4] = [25, 39, 26, 27];
const OF_ASSERTION: [u8; 4] = [28, 40, 29, 30];

/// These branches in one block, in two, and each in its own.
fn arranged(branches: &[Instr]) -> [Instr; 3] {
    let (one, two) = branches.split_at(branches.len() / 2);
    let each = branches.iter().map(|branch| vec![branch.clone()]);
    [
        Instr::Block(branches.to_vec()),
        Instr::Block([one, two].map(|part| Instr::Block(part.to_vec())).into()),
        Instr::Block(each.map(Instr::Block).collect()),
    ]
}

fn model(action: Instr, assertion: Instr) -> Model {
    first_round::model(Expr::Boolean(true), action, assertion)
}

/// The answer to firing the transition of a model, also of shuffled twins.
fn fire(model: &Model, random: &mut Random) -> u8 {
    let answers = [(); 3].map(|()| {
        let file = model.shuffled(random).encode();
        let mut store = Store::new(&[0; 7], &[0], &[9], 0, &[]);
        perform(&file, &mut store, FIRE, 0)
    });
    assert_eq!(answers, [answers[0]; 3]);
    answers[0]
}

/// Any faults of one action, and of one round.
#[test]
fn first_fault_of_several() {
    let mut random = Random::new(21);
    for chosen in 1..1 << 6 {
        let of = |first| {
            let faults = faults(first).into_iter().enumerate();
            let faults = faults.filter(|(place, _)| chosen >> place & 1 == 1);
            let (places, branches): (Vec<usize>, Vec<Instr>) =
                faults.map(|(_, fault)| fault).unzip();
            (places[0], arranged(&branches))
        };
        let (place, actions) = of(STATES);
        for action in actions {
            // The faults of the assertion come after those of the action.
            let model = model(action, Instr::Assign(FLOWS, zero_divisor()));
            assert_eq!(fire(&model, &mut random), OF_ACTION[place], "{model:?}");
        }
        let (place, assertions) = of(FLOWS);
        for assertion in assertions {
            let model = model(Instr::Skip, assertion);
            assert_eq!(fire(&model, &mut random), OF_ASSERTION[place], "{model:?}");
        }
    }
}

/// Two faults in two of three readings, the first round, the second and the one after the reset: the earlier one counts.
#[test]
fn first_fault_of_two_readings() {
    let mut random = Random::new(22);
    let readings = [
        Expr::Boolean(true),
        Expr::Variable(LATER),
        Expr::Variable(WAITING),
    ];
    let mut all = Vec::new();
    for (reading, condition) in readings.into_iter().enumerate() {
        for (place, fault) in faults(FLOWS) {
            all.push(((reading, place), Instr::when(condition.clone(), fault)));
        }
    }
    for ((one, first), (two, second)) in pairs(&all).filter(|((one, _), (two, _))| one.0 != two.0) {
        let both = Instr::Block(vec![first.clone(), second.clone()]);
        let model = model(Instr::Skip, both);
        let (_, place) = *one.min(two);
        assert_eq!(fire(&model, &mut random), OF_ASSERTION[place], "{model:?}");
        assert_eq!(start(&model).0, Err(OF_ASSERTION[place]), "{model:?}");
    }
}
