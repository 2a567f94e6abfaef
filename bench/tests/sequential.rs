//! The definitions written once more, as plainly as can be, over the trees of random models: an action, the
//! assertion carried out by single assignments in any order, marks and pick. All must end as the reference
//! implementation does.

mod common;

use std::collections::BTreeMap;

use bench::calls::{FIRE, MARKS, START, UNDO};
use bench::model_gen::{self, Shape};
use bench::random::Random;
use bench::reference::{self, Refusal, ENGINE};
use bench::tree::{Expr, Instr, Model, Operator, Transition, Variable};

use common::{equals, too_large, zero_divisor, Evaluation, Manner};
use Evaluation::{Failed, Unknown, Value};
use Manner::{TooLarge, ZeroDivisor};

type Valuation = Vec<Option<i32>>;

fn all_known(values: &[i32]) -> Valuation {
    values.iter().copied().map(Some).collect()
}

fn evaluate(expr: &Expr, over: &Valuation) -> Evaluation {
    match expr {
        Expr::Number(number) => Value(*number),
        Expr::Boolean(value) => Value(i32::from(*value)),
        Expr::Variable(variable) => over[*variable].map_or(Unknown, Value),
        Expr::Not(operand) => match evaluate(operand, over) {
            Value(value) => Value(1 - value),
            other => other,
        },
        Expr::Conditional(condition, chosen, other) => match evaluate(condition, over) {
            Value(1) => evaluate(chosen, over),
            Value(_) => evaluate(other, over),
            condition => {
                let branches = [evaluate(chosen, over), evaluate(other, over)];
                without_choice(condition, branches)
            }
        },
        Expr::Binary(operator, left, right) => {
            let both = [evaluate(left, over), evaluate(right, over)];
            let decisive = match operator {
                Operator::And => Some(Value(0)),
                Operator::Or => Some(Value(1)),
                _ => None,
            };
            if let Some(decisive) = decisive.filter(|decisive| both.contains(decisive)) {
                return decisive;
            }
            if both.contains(&Unknown) {
                return Unknown;
            }
            match both {
                [Value(left), Value(right)] => calculate(*operator, left, right),
                _ if both.contains(&Failed(ZeroDivisor)) => Failed(ZeroDivisor),
                _ => Failed(TooLarge),
            }
        }
    }
}

/// A conditional whose condition is unknown or failed.
fn without_choice(condition: Evaluation, branches: [Evaluation; 2]) -> Evaluation {
    match branches {
        [Value(one), Value(two)] if one == two => Value(one),
        _ if branches.contains(&Unknown) => Unknown,
        _ => condition,
    }
}

fn calculate(operator: Operator, left: i32, right: i32) -> Evaluation {
    use Operator::*;
    let [left, right] = [left, right].map(i64::from);
    let number = match operator {
        And => left * right,
        Or => left.max(right),
        EqualNumbers | EqualBooleans => (left == right).into(),
        Less => (left < right).into(),
        LessOrEqual => (left <= right).into(),
        Plus => left + right,
        Minus => left - right,
        Times => left * right,
        Div | Mod if right == 0 => return Failed(ZeroDivisor),
        Div => left / right,
        Mod => left % right,
    };
    i32::try_from(number).map_or(Failed(TooLarge), Value)
}

/// What an instruction comes to.
#[derive(Clone, Copy, PartialEq, Debug)]
enum Effect {
    /// A reached condition or an active expression failed.
    Fails(Manner),
    /// An active assignment has a value.
    Gives(usize, i32),
}

fn effects(instr: &Instr, over: &Valuation) -> Vec<Effect> {
    match instr {
        Instr::Skip => vec![],
        Instr::Assign(target, value) => match evaluate(value, over) {
            Unknown => vec![],
            Failed(manner) => vec![Effect::Fails(manner)],
            Value(value) => vec![Effect::Gives(*target, value)],
        },
        Instr::When(condition, body) => match evaluate(condition, over) {
            Value(1) => effects(body, over),
            Failed(manner) => vec![Effect::Fails(manner)],
            _ => vec![],
        },
        Instr::Block(branches) => {
            let each = branches.iter().flat_map(|branch| effects(branch, over));
            each.collect()
        }
    }
}

/// The numbers of a zero divisor, a number that is too large, a value outside its ends and a conflict, in their order.
const OF_ACTION: [u8; 4] = [25, 39, 26, 27];
const OF_ASSERTION: [u8; 4] = [28, 40, 29, 30];

/// The assignments, or the first of these numbers that is due. With `against_known`, known values count as assigned.
fn faultless(
    instr: &Instr,
    variables: &[Variable],
    over: &Valuation,
    numbers: [u8; 4],
    against_known: bool,
) -> Result<Vec<(usize, i32)>, u8> {
    let effects = effects(instr, over);
    for (manner, number) in [ZeroDivisor, TooLarge].into_iter().zip(numbers) {
        if effects.contains(&Effect::Fails(manner)) {
            return Err(number);
        }
    }
    let value = |effect| match effect {
        Effect::Gives(target, value) => Some((target, value)),
        Effect::Fails(_) => None,
    };
    let given: Vec<(usize, i32)> = effects.into_iter().filter_map(value).collect();
    let outside = |&(target, value): &(usize, i32)| !is_within(&variables[target], value);
    if given.iter().any(outside) {
        return Err(numbers[2]);
    }
    let conflict = |&(target, value): &(usize, i32)| {
        let known = over[target].filter(|_| against_known);
        let others = given.iter().filter(|&&(other, _)| other == target);
        let mut others = known.into_iter().chain(others.map(|&(_, another)| another));
        others.any(|another| another != value)
    };
    if given.iter().any(conflict) {
        return Err(numbers[3]);
    }
    Ok(given)
}

/// The same for one reading of the assertion.
fn of_assertion(
    model: &Model,
    variables: &[Variable],
    known: &Valuation,
) -> Result<Vec<(usize, i32)>, u8> {
    faultless(&model.assertion, variables, known, OF_ASSERTION, true)
}

fn is_within(variable: &Variable, value: i32) -> bool {
    let (low, high) = variable.ends();
    (low..=high).contains(&value)
}

/// States known, flows unknown.
fn beginning(model: &Model, states: &[i32]) -> Valuation {
    let mut known = all_known(states);
    known.resize(model.variables().count(), None);
    known
}

/// The values and the round count, or the refusal number.
type Outcome = Result<(Vec<i32>, usize), u8>;

/// By rounds.
fn by_rounds(model: &Model, states: &[i32]) -> Outcome {
    let variables: Vec<Variable> = model.variables().copied().collect();
    let mut known = beginning(model, states);
    let mut rounds = 0;
    loop {
        let given = of_assertion(model, &variables, &known)?;
        rounds += 1;
        let before = known.clone();
        for (flow, value) in given {
            known[flow] = Some(value);
        }
        if known == before {
            break;
        }
    }
    reset(model, &variables, known).map(|values| (values, rounds))
}

/// One assignment at a time, any of those that are ready.
fn one_by_one(model: &Model, states: &[i32], random: &mut Random) -> Option<Vec<i32>> {
    let variables: Vec<Variable> = model.variables().copied().collect();
    let mut known = beginning(model, states);
    loop {
        let mut ready = of_assertion(model, &variables, &known).ok()?;
        ready.retain(|&(flow, _)| known[flow].is_none());
        if ready.is_empty() {
            break;
        }
        let &(flow, value) = random.one(&ready);
        known[flow] = Some(value);
    }
    reset(model, &variables, known).ok()
}

/// A state's initial value, a flow's reset value.
fn first(variable: &Variable) -> i32 {
    match *variable {
        Variable::Boolean { first } => i32::from(first),
        Variable::Number { first, .. } => first,
    }
}

/// The flows still unknown take their reset values, and one more reading must find no fault.
fn reset(model: &Model, variables: &[Variable], mut known: Valuation) -> Result<Vec<i32>, u8> {
    for (cell, variable) in known.iter_mut().zip(variables) {
        cell.get_or_insert(first(variable));
    }
    of_assertion(model, variables, &known)?;
    Ok(known.into_iter().flatten().collect())
}

/// What firing a transition must give.
fn fired(model: &Model, old: &[i32], transition: usize) -> Outcome {
    let variables: Vec<Variable> = model.variables().copied().collect();
    let over = all_known(old);
    let transition = &model.transitions[transition];
    match evaluate(&transition.guard, &over) {
        Value(1) => {}
        Failed(ZeroDivisor) => return Err(24),
        Failed(TooLarge) => return Err(38),
        _ => return Err(23),
    }
    // The old values may change.
    let given = faultless(&transition.action, &variables, &over, OF_ACTION, false)?;
    let mut states = old[..model.states.len()].to_vec();
    for (state, value) in given {
        states[state] = value;
    }
    by_rounds(model, &states)
}

fn small_model(random: &mut Random) -> Model {
    let shape = *random.one(&[
        Shape::Small,
        Shape::Ordered,
        Shape::Ordered,
        Shape::Cyclic,
        Shape::Deep,
        Shape::Ends,
        Shape::Faulty,
        Shape::Undecided,
    ]);
    model_gen::model(random, shape)
}

/// Any values within their ends.
fn any_values<'v>(
    random: &mut Random,
    variables: impl IntoIterator<Item = &'v Variable>,
) -> Vec<i32> {
    let any = |variable: &Variable| random.within(variable.ends().0, variable.ends().1);
    variables.into_iter().map(any).collect()
}

/// Whether an if-then-else in an expression has a value though its condition has none.
fn agrees(expr: &Expr, over: &Valuation) -> bool {
    let has_value = |expr| matches!(evaluate(expr, over), Value(_));
    match expr {
        Expr::Number(_) | Expr::Boolean(_) | Expr::Variable(_) => false,
        Expr::Not(operand) => agrees(operand, over),
        Expr::Binary(_, left, right) => agrees(left, over) || agrees(right, over),
        Expr::Conditional(condition, _, _) if !has_value(condition) && has_value(expr) => true,
        Expr::Conditional(condition, chosen, other) => {
            let parts = [condition, chosen, other];
            parts.iter().any(|part| agrees(part, over))
        }
    }
}

/// The same for an instruction.
fn agrees_in(instr: &Instr, over: &Valuation) -> bool {
    match instr {
        Instr::Skip => false,
        Instr::Assign(_, value) => agrees(value, over),
        Instr::When(condition, body) => agrees(condition, over) || agrees_in(body, over),
        Instr::Block(branches) => branches.iter().any(|branch| agrees_in(branch, over)),
    }
}

/// Some orders of single assignments must end as the rounds do; gives how these end.
fn compare_orders(model: &Model, states: &[i32], random: &mut Random) -> Outcome {
    let rounds = by_rounds(model, states);
    for _ in 0..3 {
        let sequence = one_by_one(model, states, random);
        let values = rounds.as_ref().ok().map(|(values, _)| values);
        assert_eq!(sequence.as_ref(), values);
    }
    if let Ok((_, count)) = rounds {
        assert!((1..=model.flows.len() + 1).contains(&count));
    }
    rounds
}

#[test]
fn single_assignments_end_as_rounds_do() {
    let mut random = Random::new(11);
    let (mut settled, mut refused, mut agreeing) = (0, 0, 0);
    for _ in 0..4_000 {
        let model = small_model(&mut random);
        let states = any_values(&mut random, &model.states);
        match compare_orders(&model, &states, &mut random) {
            Ok(_) => settled += 1,
            Err(_) => refused += 1,
        }
        let at_first = beginning(&model, &states);
        agreeing += usize::from(agrees_in(&model.assertion, &at_first));
    }
    println!("{settled} settled, {refused} refused; {agreeing} with branches that agree");
    assert!(settled > 1_000 && refused > 200 && agreeing > 500);
}

// The flows of the next models: two numbers, two Booleans.
const RESULT: usize = 0;
const BRANCH: usize = 1;
const CONDITION: usize = 2;
const EARLIER: usize = 3;

/// A flow by if-then-else, of any two of five branches, under a condition that becomes known, that fails in either manner
/// or that is the flow's own.
fn conditional_models() -> Vec<Model> {
    let number = Expr::Number;
    let conditions = [
        Expr::Variable(CONDITION),
        equals(zero_divisor(), 4),
        equals(too_large(), 4),
        equals(Expr::Variable(RESULT), 4),
    ];
    let known_or_later = [Expr::Variable(BRANCH), number(4), number(7)];
    let branches = [&known_or_later[..], &[zero_divisor(), too_large()]].concat();
    let mut models = Vec::new();
    for condition in &conditions {
        for chosen in &branches {
            for other in &branches {
                let value = Expr::conditional(condition.clone(), chosen.clone(), other.clone());
                for (earlier, later) in [(true, 4), (true, 7), (false, 4)] {
                    models.push(conditional_model(value.clone(), earlier, later));
                }
            }
        }
    }
    models
}

/// A flow by this expression; beside it a condition, which is `earlier`, and a branch, which is `later` or else 9: both
/// become known in the second round.
fn conditional_model(value: Expr, earlier: bool, later: i32) -> Model {
    let condition = Expr::Variable(EARLIER);
    let [later, nine] = [later, 9].map(Expr::Number);
    Model {
        states: vec![],
        flows: conditional_flows(),
        events: 0,
        transitions: vec![],
        assertion: Instr::Block(vec![
            Instr::Assign(EARLIER, Expr::Boolean(earlier)),
            Instr::Assign(CONDITION, condition.clone()),
            Instr::Assign(BRANCH, Expr::conditional(condition, later, nine)),
            Instr::Assign(RESULT, value),
        ]),
    }
}

fn conditional_flows() -> Vec<Variable> {
    let number = Variable::Number {
        low: 0,
        high: 9,
        first: 7,
    };
    let boolean = Variable::Boolean { first: false };
    vec![number, number, boolean, boolean]
}

#[test]
fn single_assignments_beside_conditionals() {
    let mut random = Random::new(15);
    let (mut settled, mut refused) = (0, 0);
    for model in conditional_models() {
        let rounds = compare_orders(&model, &[], &mut random);
        assert_eq!(start(&model, &mut [9; 4], &mut []), rounds);
        match rounds {
            Ok(_) => settled += 1,
            Err(_) => refused += 1,
        }
    }
    println!("{settled} settled, {refused} refused");
    assert!(settled > 50 && refused > 50);
}

/// What the reference implementation makes of a start.
fn start(model: &Model, values: &mut [i32], marks: &mut [u8]) -> Outcome {
    let mut n = 5;
    let rounds = reference::start(&model.encode(), values, marks, &mut n);
    rounds
        .map(|rounds| (values.to_vec(), rounds))
        .map_err(Refusal::number)
}

/// The same for a fire, which must be as defined.
fn compare_fire(model: &Model, values: &mut [i32], marks: &mut [u8], transition: usize) -> Outcome {
    let wanted = fired(model, values, transition);
    let (file, mut history, mut n) = (model.encode(), [0; 1], 0);
    let found = reference::fire(&file, values, marks, &mut history, &mut n, transition)
        .map(|rounds| (values.to_vec(), rounds))
        .map_err(Refusal::number);
    assert_eq!(found, wanted);
    found
}

fn are_within_ends(model: &Model, values: &[i32]) -> bool {
    let mut cells = values.iter().zip(model.variables());
    cells.all(|(&value, variable)| is_within(variable, value))
}

/// How fires ended; and of how many the guard or the action has branches that agree, or the action fails in both manners.
#[derive(Debug, Default)]
struct Fires {
    accepted: usize,
    refused: BTreeMap<u8, usize>,
    agreeing: usize,
    mixed: usize,
}

impl Fires {
    /// A fire of any transition from these values, which must be as defined.
    fn compare(
        &mut self,
        model: &Model,
        values: &mut [i32],
        marks: &mut [u8],
        random: &mut Random,
    ) {
        let transition = random.below(model.transitions.len());
        let over = all_known(values);
        let Transition { guard, action, .. } = &model.transitions[transition];
        self.agreeing += usize::from(agrees(guard, &over) || agrees_in(action, &over));
        let fails = |manner| effects(action, &over).contains(&Effect::Fails(manner));
        self.mixed += usize::from(fails(ZeroDivisor) && fails(TooLarge));
        match compare_fire(model, values, marks, transition) {
            Ok(_) => self.accepted += 1,
            Err(number) => *self.refused.entry(number).or_default() += 1,
        }
    }
}

#[test]
fn starts_and_fires_are_as_defined() {
    let mut random = Random::new(12);
    let mut fires = Fires::default();
    for _ in 0..4_000 {
        let model = small_model(&mut random);
        let initial: Vec<i32> = model.states.iter().map(first).collect();
        let mut values = vec![0; model.variables().count()];
        let mut marks = vec![0; model.transitions.len()];
        let started = start(&model, &mut values, &mut marks);
        assert_eq!(started, by_rounds(&model, &initial));
        for _ in 0..12 {
            if model.transitions.is_empty() {
                break;
            }
            // From values of any run, or from any values within their ends.
            if random.chance(1, 3) {
                values = any_values(&mut random, model.variables());
            }
            if are_within_ends(&model, &values) {
                fires.compare(&model, &mut values, &mut marks, &mut random);
            }
        }
    }
    println!("{fires:?}");
    assert!(fires.accepted > 10_000 && fires.agreeing > 500 && fires.mixed > 100);
    assert_eq!(fires.refused.len(), 11);
    assert!(fires.refused.values().all(|&times| times > 100));
}

/// The mark of each guard over these values.
fn guard_marks(model: &Model, values: &[i32]) -> Vec<u8> {
    let over = all_known(values);
    let mark = |transition: &Transition| match evaluate(&transition.guard, &over) {
        Value(value) => value as u8,
        _ => 2,
    };
    model.transitions.iter().map(mark).collect()
}

/// An accepted start, fire or undo leaves the marks of the guards; every other call leaves the marks as they were.
#[test]
fn held_marks_are_those_of_the_guards() {
    let mut random = Random::new(14);
    let (mut settled, mut copied) = (0, 0);
    for _ in 0..4_000 {
        let model = small_model(&mut random);
        let (variables, transitions) = (model.variables().count(), model.transitions.len());
        let file = model.encode();
        let mut store = model_gen::store(&mut random, &model);
        for call in model_gen::calls(&mut random, &model) {
            let mut wanted = store.marks.cells().to_vec();
            let accepted = call.perform(&ENGINE, &file, &mut store) == 0;
            if accepted && [START, FIRE, UNDO].contains(&call.row) {
                let values = &store.values.cells()[..variables];
                wanted[..transitions].copy_from_slice(&guard_marks(&model, values));
                settled += 1;
            }
            assert_eq!(store.marks.cells(), wanted, "{call:?}");
            if accepted && call.row == MARKS {
                assert_eq!(store.buffer.cells()[..transitions], wanted[..transitions]);
                copied += 1;
            }
        }
    }
    println!("{settled} times settled, {copied} times copied");
    assert!(settled > 5_000 && copied > 1_000);
}

#[test]
fn picks_are_the_lowest_true_guards() {
    let mut random = Random::new(13);
    let (mut first, mut later, mut none) = (0, 0, 0);
    for _ in 0..4_000 {
        let model = small_model(&mut random);
        let values = any_values(&mut random, model.variables());
        let lowest = guard_marks(&model, &values)
            .iter()
            .position(|&mark| mark == 1);
        // Whatever marks the run holds.
        let marks: Vec<u8> = (0..model.transitions.len())
            .map(|_| random.below(3) as u8)
            .collect();
        for file in [model.encode(), model.shuffled(&mut random).encode()] {
            assert_eq!(reference::pick(&file, &values, &marks, &[], 0), Ok(lowest));
        }
        match lowest {
            Some(0) => first += 1,
            Some(_) => later += 1,
            None => none += 1,
        }
    }
    println!("{first} picked first, {later} later, {none} none");
    assert!(first > 500 && later > 500 && none > 200);
}
