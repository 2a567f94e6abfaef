//! What must be true of the model that a join wrote: old transitions are as before, and the new guard's mark follows
//! from those of the members.

use crate::calls::{Call, Engine, Store, FIRE, START, UNDO, VALUE};

/// A model with so many transitions, and the model that a join wrote of it.
pub struct Beside<'a> {
    pub old: &'a [u8],
    pub new: &'a [u8],
    pub transitions: usize,
}

/// A call under both models, from the same run.
pub struct Compared {
    /// Under the old model and under the new one.
    pub answers: [u8; 2],
    /// The run afterwards, under the new model.
    pub run: Store,
    /// All that differs and may not; none if 10 or 20 refuses the run under one of the models.
    pub wrong: Option<Vec<String>>,
}

impl Beside<'_> {
    /// Whether the call must do the same under both models.
    pub fn is_old(&self, call: Call) -> bool {
        match call.row {
            START | UNDO | VALUE => true,
            FIRE => call.number != self.transitions,
            _ => false,
        }
    }

    pub fn perform(&self, engine: &Engine, call: Call, run: &Store) -> Compared {
        let [mut old, mut new] = [run.clone(), run.clone()];
        let before = call.perform(engine, self.old, &mut old);
        let answer = call.perform(engine, self.new, &mut new);
        let is_refused = |answer| matches!(answer, 10 | 20);
        let wrong = (!is_refused(before) && !is_refused(answer)).then(|| {
            // The mark of the new transition is of the new model alone.
            let last = self.transitions;
            if let (0, Some(mark)) = (answer, old.marks.cells_mut().get_mut(last)) {
                *mark = new.marks.cells()[last];
            }
            let mut wrong = old.differences(&new);
            if before != answer {
                wrong.push(format!("answer: {before} / {answer}"));
            }
            wrong
        });
        Compared {
            answers: [before, answer],
            run: new,
            wrong,
        }
    }
}

/// The mark of a transition that joins these members, by their marks: `and` of the mandatory ones; without these, `or` of
/// the optional ones.
pub fn mark_together(marks: &[u8], mandatory: &[usize], optional: &[usize]) -> u8 {
    let (members, decisive, otherwise) = match mandatory {
        [] => (optional, 1, 0),
        _ => (mandatory, 0, 1),
    };
    let has = |mark| members.iter().any(|&member| marks[member] == mark);
    if has(decisive) {
        decisive
    } else if has(2) {
        2
    } else {
        otherwise
    }
}
