//! The calls. Each takes the model file's bytes; a refusal leaves everything that was lent as it was.

use super::evaluation::Evaluation;
use super::model::{Model, Sizes, Type};
use super::Refusal;

/// The five sizes of an accepted model.
pub fn check(file: &[u8]) -> Result<Sizes, Refusal> {
    Model::parse(file).map(|model| model.sizes)
}

/// Checks a model, then an expression handed beside it.
pub fn check_expression(
    file: &[u8],
    kinds: &[u8],
    parameters: &[i32],
    wanted: Type,
) -> Result<(), Refusal> {
    let model = Model::parse(file)?;
    model.expression(kinds, parameters, wanted).map(|_| ())
}

/// Starts a run; gives the round count.
pub fn start(
    file: &[u8],
    values: &mut [i32],
    marks: &mut [u8],
    n: &mut usize,
) -> Result<usize, Refusal> {
    let model = Model::parse(file)?;
    let cells = model.cells_mut(values)?;
    let held = model.marks_mut(marks)?;
    let (initial, rounds) = model.initial()?;
    cells.copy_from_slice(&initial);
    model.mark(cells, held);
    *n = 0;
    Ok(rounds)
}

/// Fires a transition and records it; gives the round count. The guard decides, whatever mark is held.
pub fn fire(
    file: &[u8],
    values: &mut [i32],
    marks: &mut [u8],
    history: &mut [u16],
    n: &mut usize,
    transition: usize,
) -> Result<usize, Refusal> {
    let model = Model::parse(file)?;
    let cells = model.cells_mut(values)?;
    let held = model.marks_mut(marks)?;
    if transition >= model.sizes.transitions {
        return Err(Refusal::NoSuchTransition);
    }
    model.consistent(cells, held, history, *n)?;
    let place = history.get_mut(*n).ok_or(Refusal::HistoryFull)?;
    let rounds = model.step(cells, transition)?;
    model.mark(cells, held);
    *place = transition as u16;
    *n += 1;
    Ok(rounds)
}

/// Takes the last step back: the values become those of the start and the other steps fired again.
pub fn undo(
    file: &[u8],
    values: &mut [i32],
    marks: &mut [u8],
    history: &[u16],
    n: &mut usize,
) -> Result<(), Refusal> {
    let model = Model::parse(file)?;
    let cells = model.cells_mut(values)?;
    let held = model.marks_mut(marks)?;
    let steps = model.consistent(cells, held, history, *n)?;
    let (_, earlier) = steps.split_last().ok_or(Refusal::NothingToUndo)?;
    let replayed = model.replay(earlier).map_err(|_| Refusal::ReplayRefused)?;
    cells.copy_from_slice(&replayed);
    model.mark(cells, held);
    *n -= 1;
    Ok(())
}

/// Copies the marks that the run holds, also where a caller made them up.
pub fn marks(
    file: &[u8],
    values: &[i32],
    marks: &[u8],
    history: &[u16],
    n: usize,
    buffer: &mut [u8],
) -> Result<(), Refusal> {
    let model = Model::parse(file)?;
    let cells = model.cells(values)?;
    let held = model.marks(marks)?;
    let copies = model.marks_mut(buffer)?;
    model.consistent(cells, held, history, n)?;
    copies.copy_from_slice(held);
    Ok(())
}

/// The value of a variable.
pub fn value(
    file: &[u8],
    values: &[i32],
    marks: &[u8],
    history: &[u16],
    n: usize,
    variable: usize,
) -> Result<i32, Refusal> {
    let model = Model::parse(file)?;
    let cells = model.cells(values)?;
    let held = model.marks(marks)?;
    let &found = cells.get(variable).ok_or(Refusal::NoSuchVariable)?;
    model.consistent(cells, held, history, n)?;
    Ok(found)
}

/// The lowest transition whose guard is true, or that there is none: a failed guard is not true. The guards decide,
/// whatever marks are held.
pub fn pick(
    file: &[u8],
    values: &[i32],
    marks: &[u8],
    history: &[u16],
    n: usize,
) -> Result<Option<usize>, Refusal> {
    let model = Model::parse(file)?;
    let cells = model.cells(values)?;
    let held = model.marks(marks)?;
    model.consistent(cells, held, history, n)?;
    Ok(model
        .transitions
        .iter()
        .position(|transition| model.evaluate(transition.guard, cells) == Evaluation::Value(1)))
}

/// The lowest variable whose value is outside its ends, or that there is none, and how many values were looked at.
pub fn first_outside(file: &[u8], values: &[i32]) -> Result<(Option<usize>, usize), Refusal> {
    let model = Model::parse(file)?;
    let cells = model.cells(values)?;
    Ok(model.first_outside(cells))
}

impl Model {
    /// The cells of a values slice that are in use.
    fn cells<'v>(&self, values: &'v [i32]) -> Result<&'v [i32], Refusal> {
        values
            .get(..self.variables.len())
            .ok_or(Refusal::ShortValues)
    }

    fn cells_mut<'v>(&self, values: &'v mut [i32]) -> Result<&'v mut [i32], Refusal> {
        values
            .get_mut(..self.variables.len())
            .ok_or(Refusal::ShortValues)
    }

    /// The cells of a slice of marks that are in use: the run's marks, or a buffer for copies of them.
    fn marks<'m>(&self, marks: &'m [u8]) -> Result<&'m [u8], Refusal> {
        marks
            .get(..self.sizes.transitions)
            .ok_or(Refusal::ShortMarks)
    }

    fn marks_mut<'m>(&self, marks: &'m mut [u8]) -> Result<&'m mut [u8], Refusal> {
        marks
            .get_mut(..self.sizes.transitions)
            .ok_or(Refusal::ShortMarks)
    }

    /// Writes the mark of each transition over these values: 1 its guard is true, 0 false, 2 failed.
    fn mark(&self, cells: &[i32], marks: &mut [u8]) {
        for (mark, transition) in marks.iter_mut().zip(&self.transitions) {
            *mark = match self.evaluate(transition.guard, cells) {
                Evaluation::Value(value) => u8::from(value == 1),
                _ => 2,
            };
        }
    }

    /// Looks at the values from the lowest variable up, and at none after the first that is outside its ends.
    fn first_outside(&self, cells: &[i32]) -> (Option<usize>, usize) {
        let mut looked = 0;
        for (place, (variable, &cell)) in self.variables.iter().zip(cells).enumerate() {
            looked += 1;
            if !variable.admits(cell) {
                return (Some(place), looked);
            }
        }
        (None, looked)
    }

    /// The recorded steps, if these, the values and the marks can be those of a run.
    fn consistent<'h>(
        &self,
        cells: &[i32],
        marks: &[u8],
        history: &'h [u16],
        n: usize,
    ) -> Result<&'h [u16], Refusal> {
        let steps = history.get(..n).ok_or(Refusal::InconsistentRun)?;
        let fired = steps
            .iter()
            .all(|&step| usize::from(step) < self.sizes.transitions);
        let marked = marks.iter().all(|&mark| mark <= 2);
        let (outside, _) = self.first_outside(cells);
        if !fired || !marked || outside.is_some() {
            return Err(Refusal::InconsistentRun);
        }
        Ok(steps)
    }

    /// The values after a start and these steps.
    fn replay(&self, steps: &[u16]) -> Result<Vec<i32>, Refusal> {
        let (mut values, _) = self.initial()?;
        for &step in steps {
            self.step(&mut values, usize::from(step))?;
        }
        Ok(values)
    }
}
