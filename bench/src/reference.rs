//! Guarded transition systems: a model file is parsed into a tree, and the calls work on that tree; texts read as
//! expressions; models with a transition for events that happen together; old files rewritten; and windows over the rows
//! of a log.

mod evaluation;
mod instructions;
mod model;
mod refusal;
mod rewriting;
mod run;
mod synchronisation;
mod texts;
mod windows;

pub use model::{Layout, Limits, Model, Sizes, Type};
pub use refusal::Refusal;
pub use rewriting::rewrite;
pub use run::{check, check_expression, fire, first_outside, marks, pick, start, undo, value};
pub use synchronisation::synchronise;
pub use texts::write_nodes;
pub use windows::{windows, windows_one_by_one};

use crate::calls::Engine;

/// This implementation in the form of the C calls: answer 0 and the results, or the refusal number alone.
pub const ENGINE: Engine = Engine {
    name: "Rust",
    check: |model, sizes| {
        answer(check(model), |found| {
            let cells = sizes.get_mut(..5).ok_or(Refusal::ShortMarks)?;
            cells.copy_from_slice(&found.to_array());
            Ok(())
        })
    },
    start: |model, values, marks, n, rounds| {
        answer(start(model, values, marks, n), |count| {
            *rounds = count;
            Ok(())
        })
    },
    fire: |model, values, marks, history, n, transition, rounds| {
        let fired = fire(model, values, marks, history, n, transition);
        answer(fired, |count| {
            *rounds = count;
            Ok(())
        })
    },
    undo: |model, values, marks, history, n| answer(undo(model, values, marks, history, n), Ok),
    marks: |model, values, held, history, n, buffer| {
        answer(marks(model, values, held, history, n, buffer), Ok)
    },
    value: |model, values, marks, history, n, variable, cell| {
        let read = value(model, values, marks, history, n, variable);
        answer(read, |found| {
            *cell = found;
            Ok(())
        })
    },
    pick: |model, values, marks, history, n, transition, found| {
        answer(pick(model, values, marks, history, n), |picked| {
            *found = u8::from(picked.is_some());
            if let Some(lowest) = picked {
                *transition = lowest;
            }
            Ok(())
        })
    },
    first_outside: |model, values, variable, found, looked| {
        answer(first_outside(model, values), |(outside, count)| {
            *found = u8::from(outside.is_some());
            if let Some(lowest) = outside {
                *variable = lowest;
            }
            *looked = count;
            Ok(())
        })
    },
    text: |model, text, kinds, parameters, count| {
        answer(write_nodes(model, text, kinds, parameters), |nodes| {
            *count = nodes;
            Ok(())
        })
    },
    synchronise: |model, mandatory, optional, out, length| {
        answer(synchronise(model, mandatory, optional, out), |written| {
            *length = written;
            Ok(())
        })
    },
    rewrite: |old, out, length| {
        answer(rewrite(old, out), |written| {
            *length = written;
            Ok(())
        })
    },
    windows: |model, condition, number, window, rows, figures, count| {
        let written = windows(model, condition, number, window, rows, figures);
        answer(written, |rows| {
            *count = rows;
            Ok(())
        })
    },
};

/// The C calls' answer: 0 once the results are written, or the refusal's number.
fn answer<T>(result: Result<T, Refusal>, write: impl FnOnce(T) -> Result<(), Refusal>) -> u8 {
    match result.and_then(write) {
        Ok(()) => 0,
        Err(refusal) => refusal.number(),
    }
}
