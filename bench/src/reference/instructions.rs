//! Actions and the assertion.

use super::evaluation::{Evaluation, Failure, Valuation};
use super::model::{Instr, InstrId, Model};
use super::Refusal;

/// What is wrong with an action or with a round, in the order of the refusals.
#[derive(Clone, Copy, PartialEq, Eq, PartialOrd, Ord)]
enum Fault {
    Failed(Failure),
    /// A value outside its ends.
    Outside,
    /// Two values for one variable.
    Conflict,
}

/// The first fault of all that are met, if any is.
#[derive(Default)]
struct Faults(Option<Fault>);

impl Faults {
    fn meet(&mut self, fault: Fault) {
        self.0 = Some(self.0.map_or(fault, |first| first.min(fault)));
    }
}

impl Model {
    /// Hands every active assignment that has a value to `each`, and every failure of an active expression or of a reached
    /// condition. Unknown conditions and expressions wait.
    fn active<V: Valuation + ?Sized>(
        &self,
        id: InstrId,
        valuation: &V,
        each: &mut impl FnMut(Result<(usize, i32), Failure>),
    ) {
        match self.instr(id) {
            Instr::Skip => {}
            Instr::Assign { target, value } => match self.evaluate(value, valuation) {
                Evaluation::Unknown => {}
                Evaluation::Failed(failure) => each(Err(failure)),
                Evaluation::Value(value) => each(Ok((target as usize, value))),
            },
            Instr::When { condition, body } => match self.evaluate(condition, valuation) {
                Evaluation::Unknown | Evaluation::Value(0) => {}
                Evaluation::Failed(failure) => each(Err(failure)),
                Evaluation::Value(_) => self.active(body, valuation, each),
            },
            Instr::Block { first, end } => {
                for &branch in self.branches(first, end) {
                    self.active(branch, valuation, each);
                }
            }
        }
    }

    /// Fires a transition on the values of all variables, unrecorded: guard, action, assertion. Gives the round
    /// count; a refusal leaves the values as they were.
    pub fn step(&self, values: &mut [i32], transition: usize) -> Result<usize, Refusal> {
        let transition = self.transitions[transition];
        match self.evaluate(transition.guard, values) {
            Evaluation::Value(1) => {}
            Evaluation::Value(_) => return Err(Refusal::GuardFalse),
            Evaluation::Failed(Failure::ZeroDivisor) => return Err(Refusal::GuardZeroDivisor),
            Evaluation::Failed(Failure::TooLarge) => return Err(Refusal::GuardTooLarge),
            Evaluation::Unknown => unreachable!("all variables are known"),
        }
        let states = self.act(transition.action, values)?;
        let (flows, rounds) = self.propagate(&states)?;
        values[..states.len()].copy_from_slice(&states);
        values[states.len()..].copy_from_slice(&flows);
        Ok(rounds)
    }

    /// The values at the start, and the round count.
    pub fn initial(&self) -> Result<(Vec<i32>, usize), Refusal> {
        let states = &self.variables[..self.sizes.states];
        let mut values: Vec<i32> = states.iter().map(|state| state.first).collect();
        let (flows, rounds) = self.propagate(&values)?;
        values.extend(flows);
        Ok((values, rounds))
    }

    /// The states after an action over the old values; the first fault in the order 25, 39, 26, 27 counts.
    fn act(&self, action: InstrId, old: &[i32]) -> Result<Vec<i32>, Refusal> {
        let mut faults = Faults::default();
        let mut given = vec![None; self.sizes.states];
        self.active(action, old, &mut |active| match active {
            Err(failure) => faults.meet(Fault::Failed(failure)),
            Ok((state, value)) if !self.variables[state].admits(value) => {
                faults.meet(Fault::Outside)
            }
            Ok((state, value)) => {
                if *given[state].get_or_insert(value) != value {
                    faults.meet(Fault::Conflict);
                }
            }
        });
        match faults.0 {
            None => Ok(given
                .iter()
                .zip(old)
                .map(|(new, &old)| new.unwrap_or(old))
                .collect()),
            Some(Fault::Failed(Failure::ZeroDivisor)) => Err(Refusal::ActionZeroDivisor),
            Some(Fault::Failed(Failure::TooLarge)) => Err(Refusal::ActionTooLarge),
            Some(Fault::Outside) => Err(Refusal::ActionOutside),
            Some(Fault::Conflict) => Err(Refusal::ActionConflict),
        }
    }

    /// The flows that the assertion gives over these states, and the round count.
    pub fn propagate(&self, states: &[i32]) -> Result<(Vec<i32>, usize), Refusal> {
        let flows = &self.variables[states.len()..];
        let mut known: Vec<Option<i32>> = states.iter().copied().map(Some).collect();
        known.resize(self.variables.len(), None);
        let mut round = Round::new(self);
        let mut rounds = 0;
        loop {
            round.read(&known)?;
            rounds += 1;
            if round.fresh.is_empty() {
                break;
            }
            round.set(&mut known);
        }
        let settled: Vec<i32> = known[states.len()..]
            .iter()
            .zip(flows)
            .map(|(value, flow)| value.unwrap_or(flow.first))
            .collect();
        for (cell, &value) in known[states.len()..].iter_mut().zip(&settled) {
            *cell = Some(value);
        }
        round.read(&known)?;
        Ok((settled, rounds))
    }
}

/// One reading of the whole assertion.
struct Round<'m> {
    model: &'m Model,
    /// What this round gives to each unknown variable.
    given: Vec<Option<i32>>,
    /// The variables that this round gives a value.
    fresh: Vec<usize>,
}

impl<'m> Round<'m> {
    fn new(model: &'m Model) -> Self {
        Round {
            model,
            given: vec![None; model.variables.len()],
            fresh: Vec::new(),
        }
    }

    /// Reads every instruction over what is known; the first fault in the order 28, 40, 29, 30 counts.
    fn read(&mut self, known: &[Option<i32>]) -> Result<(), Refusal> {
        let Round {
            model,
            given,
            fresh,
        } = self;
        let mut faults = Faults::default();
        model.active(model.assertion, known, &mut |active| match active {
            Err(failure) => faults.meet(Fault::Failed(failure)),
            Ok((flow, value)) if !model.variables[flow].admits(value) => {
                faults.meet(Fault::Outside)
            }
            Ok((flow, value)) => match known[flow].or(given[flow]) {
                None => {
                    given[flow] = Some(value);
                    fresh.push(flow);
                }
                Some(old) if old != value => faults.meet(Fault::Conflict),
                Some(_) => {}
            },
        });
        match faults.0 {
            None => Ok(()),
            Some(Fault::Failed(Failure::ZeroDivisor)) => Err(Refusal::AssertionZeroDivisor),
            Some(Fault::Failed(Failure::TooLarge)) => Err(Refusal::AssertionTooLarge),
            Some(Fault::Outside) => Err(Refusal::AssertionOutside),
            Some(Fault::Conflict) => Err(Refusal::AssertionConflict),
        }
    }

    /// Sets what the round gave, and makes ready for the next one.
    fn set(&mut self, known: &mut [Option<i32>]) {
        for flow in self.fresh.drain(..) {
            known[flow] = self.given[flow].take();
        }
    }
}
