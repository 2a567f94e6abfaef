//! The marks that a run holds, A4, by hand.

use bench::calls::{
    Call, Store, CHECK, FIRE, FIRST_OUTSIDE, MARKS, PICK, START, TABLE, UNDO, VALUE,
};
use bench::reference::ENGINE;
use bench::tree::{Expr, Instr, Model, Operator, Transition, Variable};

fn number(value: i32) -> Expr {
    Expr::Number(value)
}

fn equal(left: Expr, right: Expr) -> Expr {
    Expr::binary(Operator::EqualNumbers, left, right)
}

/// The first variable, a number in all models here.
fn x() -> Expr {
    Expr::Variable(0)
}

fn set(value: Expr) -> Instr {
    Instr::Assign(0, value)
}

/// Makes x one higher.
fn raise() -> Instr {
    set(Expr::binary(Operator::Plus, x(), number(1)))
}

fn range(high: i32, first: i32) -> Variable {
    Variable::Number {
        low: 0,
        high,
        first,
    }
}

fn transitions(parts: impl IntoIterator<Item = (Expr, Instr)>) -> Vec<Transition> {
    parts
        .into_iter()
        .map(|(guard, action)| Transition {
            event: 0,
            guard,
            action,
        })
        .collect()
}

/// A state x from 0 to 3, at first 1, and a flow that tells whether it is below 2. The guards are 6 div x = 3, the flow,
/// and x not 3: for x from 0 to 3 the marks are 2 1 1, 0 1 1, 1 0 1 and 0 0 0. The first two transitions raise x, the
/// third sets it to 0.
fn stairs() -> Vec<u8> {
    let quotient = Expr::binary(Operator::Div, number(6), x());
    Model {
        states: vec![range(3, 1)],
        flows: vec![Variable::Boolean { first: false }],
        events: 1,
        transitions: transitions([
            (equal(quotient, number(3)), raise()),
            (Expr::Variable(1), raise()),
            (equal(x(), number(3)).negated(), set(number(0))),
        ]),
        assertion: Instr::Assign(1, Expr::binary(Operator::Less, x(), number(2))),
    }
    .encode()
}

/// Transitions 0 to 7 are refused by 23 to 30, transition 8 is not. A start with x at 1, 2, 3 is refused by 28, 29, 30.
fn refusing(first: i32) -> Vec<u8> {
    let failed = || Expr::binary(Operator::Div, number(1), number(0));
    let flow = |value| Instr::Assign(1, value);
    let always = |action| (Expr::Boolean(true), action);
    let both = |one, two| Instr::Block(vec![one, two]);
    Model {
        states: vec![range(5, first)],
        flows: vec![range(5, 0)],
        events: 1,
        transitions: transitions([
            (Expr::Boolean(false), Instr::Skip),
            (equal(failed(), number(1)), Instr::Skip),
            always(set(failed())),
            always(set(number(9))),
            always(both(set(number(1)), set(number(2)))),
            always(set(number(1))),
            always(set(number(2))),
            always(set(number(3))),
            always(set(number(4))),
        ]),
        assertion: Instr::Block(vec![
            Instr::when(equal(x(), number(1)), flow(failed())),
            Instr::when(equal(x(), number(2)), flow(number(9))),
            Instr::when(
                equal(x(), number(3)),
                both(flow(number(1)), flow(number(2))),
            ),
        ]),
    }
    .encode()
}

/// A model, and all that is lent to the calls on it.
struct Run {
    model: Vec<u8>,
    store: Store,
}

impl Run {
    fn new(model: Vec<u8>, store: Store) -> Self {
        Run { model, store }
    }

    /// The answer to a call; if it is refused, nothing has changed.
    fn call(&mut self, row: usize, number: usize) -> u8 {
        let before = self.store.clone();
        let call = Call { row, number };
        let answer = call.perform(&ENGINE, &self.model, &mut self.store);
        if answer != 0 {
            assert_eq!(self.store.differences(&before), [""; 0], "{call:?}");
        }
        assert!(self.store.intact(), "{call:?}");
        answer
    }

    /// The answers to each call of the table, in its order; fire and value take these numbers.
    fn all_calls(&mut self, transition: usize, variable: usize) -> [u8; TABLE.len()] {
        std::array::from_fn(|row| match row {
            FIRE => self.call(row, transition),
            VALUE => self.call(row, variable),
            _ => self.call(row, 0),
        })
    }

    fn values(&self) -> &[i32] {
        self.store.values.cells()
    }

    fn marks(&self) -> &[u8] {
        self.store.marks.cells()
    }

    fn buffer(&self) -> &[u8] {
        self.store.buffer.cells()
    }

    /// What pick answers.
    fn picked(&mut self) -> Option<usize> {
        assert_eq!(self.call(PICK, 0), 0);
        (self.store.found.get() == 1).then_some(self.store.transition.get())
    }
}

#[test]
fn made_up_marks() {
    // The guards give 1 0 1.
    let store = Store::new(&[2, 0, -7], &[0, 1, 2, 9], &[9; 3], 0, &[7; 4]);
    let mut run = Run::new(stairs(), store);
    assert_eq!(run.call(MARKS, 0), 0);
    assert_eq!(run.buffer(), [0, 1, 2, 7]);
    assert_eq!(run.call(FIRE, 1), 23);
    assert_eq!(run.picked(), Some(0));
    assert_eq!(run.call(VALUE, 0), 0);
    assert_eq!(run.marks(), [0, 1, 2, 9]);
    // A fire that is accepted sets them right.
    assert_eq!(run.call(FIRE, 0), 0);
    assert_eq!(run.values(), [3, 0, -7]);
    assert_eq!(run.marks(), [0, 0, 0, 9]);
    assert_eq!(run.buffer(), [0, 1, 2, 7]);
    assert_eq!(run.call(MARKS, 0), 0);
    assert_eq!(run.buffer(), [0, 0, 0, 7]);
    assert_eq!(run.picked(), None);
    // So does an undo, to the values of the start.
    run.store.marks.cells_mut().fill(2);
    assert_eq!(run.call(UNDO, 0), 0);
    assert_eq!(run.values(), [1, 1, -7]);
    assert_eq!(run.marks(), [0, 1, 1, 2]);
}

#[test]
fn a_guard_that_fails_after_a_fire() {
    let store = Store::new(&[9; 2], &[255; 3], &[9; 3], 77, &[7; 3]);
    let mut run = Run::new(stairs(), store);
    assert_eq!(run.call(START, 0), 0);
    assert_eq!(run.marks(), [0, 1, 1]);
    assert_eq!(run.call(FIRE, 2), 0);
    assert_eq!(run.values(), [0, 1]);
    assert_eq!(run.marks(), [2, 1, 1]);
    assert_eq!(run.call(MARKS, 0), 0);
    assert_eq!(run.buffer(), [2, 1, 1]);
    assert_eq!(run.call(FIRE, 0), 24);
    assert_eq!(run.picked(), Some(1));
    assert_eq!(run.call(FIRE, 1), 0);
    assert_eq!(run.marks(), [0, 1, 1]);
    // Now the flow, which is the second guard, changes.
    assert_eq!(run.call(FIRE, 1), 0);
    assert_eq!(run.values(), [2, 0]);
    assert_eq!(run.marks(), [1, 0, 1]);
    assert_eq!(run.call(FIRE, 0), 21);
    // Back to the start.
    for marks in [[0, 1, 1], [2, 1, 1], [0, 1, 1]] {
        assert_eq!(run.call(UNDO, 0), 0);
        assert_eq!(run.marks(), marks);
    }
    assert_eq!(run.values(), [1, 1]);
    assert_eq!(run.call(UNDO, 0), 22);
}

#[test]
fn marks_above_2() {
    for mark in [3, 255] {
        for place in 0..3 {
            let mut marks = [0, 1, 2, 9];
            marks[place] = mark;
            let store = Store::new(&[1, 1], &marks, &[1, 9], 1, &[7; 3]);
            let mut run = Run::new(stairs(), store);
            for row in [FIRE, UNDO, MARKS, VALUE, PICK] {
                assert_eq!(run.call(row, 0), 20, "{}", TABLE[row].name);
            }
            // Neither check nor first_outside is lent the run, and start takes any content.
            assert_eq!(run.call(CHECK, 0), 0);
            assert_eq!(run.call(FIRST_OUTSIDE, 0), 0);
            assert_eq!(run.marks(), marks);
            assert_eq!(run.call(START, 0), 0);
            assert_eq!(run.marks(), [0, 1, 1, 9]);
        }
        // At place T it is not looked at.
        let store = Store::new(&[1, 1], &[2, 2, 2, mark], &[1, 9], 1, &[7; 3]);
        let mut run = Run::new(stairs(), store);
        assert_eq!(run.all_calls(1, 0), [0; 8]);
        assert_eq!(run.marks(), [0, 1, 1, mark]);
    }
}

/// Slices of T - 1, T and T + 3 cells for the run's marks and for the buffer.
#[test]
fn lengths() {
    for marks in [2, 3, 6] {
        for buffer in [2, 3, 6] {
            let store = Store::new(&[1, 1], &[2; 6][..marks], &[1, 9], 1, &[7; 6][..buffer]);
            let mut run = Run::new(stairs(), store);
            let answers = run.all_calls(1, 0);
            match (marks, buffer) {
                (2, _) => assert_eq!(answers, [0, 10, 10, 10, 10, 10, 10, 0]),
                (_, 2) => assert_eq!(answers, [0, 0, 0, 0, 10, 0, 0, 0]),
                _ => {
                    assert_eq!(answers, [0; 8]);
                    assert_eq!(run.buffer()[..3], [0, 1, 1]);
                }
            }
            let right = if marks == 2 {
                [2; 6]
            } else {
                [0, 1, 1, 2, 2, 2]
            };
            assert_eq!(run.marks(), &right[..marks]);
        }
    }
}

#[test]
fn orders_of_refusal() {
    let wrong = |values: &[i32], marks: &[u8], buffer: &[u8]| {
        let mut run = Run::new(stairs(), Store::new(values, marks, &[], 5, buffer));
        run.all_calls(3, 2)
    };
    // 9 before 10.
    assert_eq!(wrong(&[1], &[], &[]), [0, 9, 9, 9, 9, 9, 9, 9]);
    assert_eq!(wrong(&[1], &[3; 3], &[]), [0, 9, 9, 9, 9, 9, 9, 9]);
    // 10 before 11, 12 and 20; the values are outside, n is above the history's length, and the marks are above 2.
    let short = [0, 10, 10, 10, 10, 10, 10, 0];
    assert_eq!(wrong(&[9, 9], &[3; 2], &[]), short);
    assert_eq!(wrong(&[9, 9], &[3; 2], &[7; 3]), short);
    // 11, 12 and the 10 of the buffer before 20.
    let mut run = Run::new(stairs(), Store::new(&[1, 1], &[3; 3], &[], 0, &[]));
    assert_eq!(run.call(FIRE, 3), 11);
    assert_eq!(run.call(VALUE, 2), 12);
    assert_eq!(run.call(MARKS, 0), 10);
    // 20 before 21, 22, 23.
    assert_eq!(run.call(FIRE, 0), 20);
    assert_eq!(run.call(UNDO, 0), 20);
    run.store.marks.cells_mut().fill(2);
    assert_eq!(run.call(FIRE, 0), 21);
    assert_eq!(run.call(UNDO, 0), 22);
    // 10 before 28, 29, 30.
    for (first, number) in [(1, 28), (2, 29), (3, 30)] {
        let store = |marks: &[u8]| Store::new(&[9; 2], marks, &[], 5, &[]);
        assert_eq!(Run::new(refusing(first), store(&[1; 8])).call(START, 0), 10);
        assert_eq!(
            Run::new(refusing(first), store(&[9; 9])).call(START, 0),
            number
        );
    }
}

/// `call` looks at the marks after each refusal.
#[test]
fn refused_calls_keep_made_up_marks() {
    let marks = [2, 1, 0, 1, 2, 0, 0, 2, 0, 77];
    let store = |places: &[u16], n| Store::new(&[0, 0], &marks, places, n, &[]);
    let mut run = Run::new(refusing(0), store(&[0, 8, 8], 2));
    for transition in 0..8 {
        assert_eq!(run.call(FIRE, transition), 23 + transition as u8);
    }
    assert_eq!(run.call(UNDO, 0), 31);
    assert_eq!(run.call(FIRE, 8), 0);
    assert_eq!(run.marks(), [0, 2, 1, 1, 1, 1, 1, 1, 1, 77]);
    let mut run = Run::new(refusing(0), store(&[], 0));
    assert_eq!(run.call(FIRE, 8), 21);
    assert_eq!(run.call(UNDO, 0), 22);
    for first in 1..=3 {
        let mut run = Run::new(refusing(first), store(&[8], 1));
        assert_eq!(run.call(START, 0), 27 + first as u8);
        assert_eq!(run.call(UNDO, 0), 31);
    }
}

#[test]
fn no_transitions() {
    let model = Model {
        states: vec![range(3, 1)],
        flows: vec![],
        events: 0,
        transitions: vec![],
        assertion: Instr::Skip,
    };
    for cells in [&[][..], &[9, 255]] {
        let mut run = Run::new(model.encode(), Store::new(&[2], cells, &[], 0, cells));
        assert_eq!(run.all_calls(0, 0), [0, 0, 11, 22, 0, 0, 0, 0]);
        assert_eq!((run.marks(), run.buffer()), (cells, cells));
        assert_eq!(run.values(), [1]);
        assert_eq!(run.picked(), None);
    }
}

/// 255 transitions, each fireable where x is its number, and raising x.
#[test]
fn most_transitions() {
    let model = Model {
        states: vec![range(255, 0)],
        flows: vec![],
        events: 1,
        transitions: transitions((0..255).map(|place| (equal(x(), number(place)), raise()))),
        assertion: Instr::Skip,
    };
    let only = |place| -> Vec<u8> { (0..255).map(|other| u8::from(other == place)).collect() };
    let store = Store::new(&[0], &[2; 258], &[255; 255], 0, &[7; 255]);
    let mut run = Run::new(model.encode(), store);
    for place in 0..255 {
        assert_eq!(run.picked(), Some(place));
        assert_eq!(run.call(FIRE, place), 0);
        assert_eq!(run.marks()[..255], only(place + 1));
        assert_eq!(run.marks()[255..], [2; 3]);
    }
    assert_eq!(run.picked(), None);
    assert_eq!(run.call(UNDO, 0), 0);
    assert_eq!(run.call(MARKS, 0), 0);
    assert_eq!(run.buffer(), only(254));
    // A mark above 2 at the last place counts, one after it does not; a slice of 254 is too short.
    run.store.marks.cells_mut()[255] = 3;
    assert_eq!(run.call(PICK, 0), 0);
    run.store.marks.cells_mut()[254] = 3;
    assert_eq!(run.call(PICK, 0), 20);
    let mut run = Run::new(model.encode(), Store::new(&[0], &[0; 254], &[], 0, &[]));
    assert_eq!(run.all_calls(255, 1), [0, 10, 10, 10, 10, 10, 10, 0]);
}
