//! Windows over the rows of a log: in how many of the last rows a condition is true, and the largest value of a number
//! there.

use std::collections::VecDeque;
use std::slice::ChunksExact;

use super::evaluation::Evaluation::Value;
use super::model::{Expression, Limits, Model, Type};
use super::Refusal;
use crate::calls::Nodes;

/// Writes the figures of every row; gives how many rows there are. Each row enters the window once and leaves it at most
/// once.
pub fn windows(
    file: &[u8],
    condition: Nodes,
    number: Nodes,
    window: usize,
    rows: &[i32],
    figures: &mut [i32],
) -> Result<usize, Refusal> {
    let log = Log::new(file, [condition, number], window, rows)?;
    let cells = log.cells_mut(figures)?;
    let mut moving = Window::new(window);
    for (row, cells) in log.rows.clone().zip(cells.chunks_exact_mut(FIGURES)) {
        let is_true = log.condition.value(row) == Some(1);
        cells.copy_from_slice(&moving.enter(is_true, log.number.value(row)));
    }
    Ok(log.rows.len())
}

/// The same, each window by itself.
pub fn windows_one_by_one(
    file: &[u8],
    condition: Nodes,
    number: Nodes,
    window: usize,
    rows: &[i32],
    figures: &mut [i32],
) -> Result<usize, Refusal> {
    let log = Log::new(file, [condition, number], window, rows)?;
    let cells = log.cells_mut(figures)?;
    let rows: Vec<&[i32]> = log.rows.clone().collect();
    for (last, cells) in cells.chunks_exact_mut(FIGURES).enumerate() {
        let first = (last + 1).saturating_sub(window);
        let within = rows[first..=last].iter();
        let truths = within.clone().map(|&row| log.condition.evaluate(row));
        let count = truths.filter(|&truth| truth == Value(1)).count();
        let numbers = within.filter_map(|&row| match log.number.evaluate(row) {
            Value(number) => Some(number),
            _ => None,
        });
        cells.copy_from_slice(&in_cells(count, numbers.max()));
    }
    Ok(rows.len())
}

/// Cells of a row's figures.
const FIGURES: usize = 3;

/// How many rows make the condition true, the largest number, and whether there is one.
fn in_cells(count: usize, largest: Option<i32>) -> [i32; FIGURES] {
    [
        count as i32,
        largest.unwrap_or(0),
        i32::from(largest.is_some()),
    ]
}

/// What is asked, over rows that are still to be checked.
struct Log<'r> {
    model: Model,
    condition: Expression,
    number: Expression,
    rows: ChunksExact<'r, i32>,
}

impl<'r> Log<'r> {
    /// The refusals of the model, of both expressions, and 41.
    fn new(
        file: &[u8],
        [condition, number]: [Nodes; 2],
        window: usize,
        rows: &'r [i32],
    ) -> Result<Self, Refusal> {
        let model = Model::parse(file)?;
        let parse = |nodes: Nodes, wanted| model.expression(nodes.kinds, nodes.parameters, wanted);
        let condition = parse(condition, Type::Boolean)?;
        let number = parse(number, Type::Number)?;
        let width = model.sizes.variables();
        let is_window = (1..=Limits::WINDOW).contains(&window);
        if !is_window || width == 0 || !rows.len().is_multiple_of(width) {
            return Err(Refusal::NoWindows);
        }
        Ok(Log {
            model,
            condition,
            number,
            rows: rows.chunks_exact(width),
        })
    }

    /// The cells that the figures are written to, if they are long enough and all values are within their ends.
    fn cells_mut<'f>(&self, figures: &'f mut [i32]) -> Result<&'f mut [i32], Refusal> {
        let cells = figures
            .get_mut(..FIGURES * self.rows.len())
            .ok_or(Refusal::ShortMarks)?;
        let variables = self.model.variables.iter();
        let (lows, highs): (Vec<i32>, Vec<i32>) =
            variables.map(|each| (each.low, each.high)).unzip();
        // Without a branch for each value, so that several are compared at once.
        let admits = |row: &[i32]| {
            let ends = lows.iter().zip(&highs);
            let pairs = row.iter().zip(ends);
            pairs.fold(true, |within, (value, (low, high))| {
                within & (low <= value) & (value <= high)
            })
        };
        if !self.rows.clone().all(admits) {
            return Err(Refusal::InconsistentRun);
        }
        Ok(cells)
    }
}

/// The last rows, as many as a window has.
struct Window {
    /// Whether each of them makes the condition true: a ring. At first it holds rows that do not.
    truths: Vec<bool>,
    /// The oldest place of the ring, which the next row takes.
    oldest: usize,
    /// How many of them make it true.
    count: usize,
    /// How many rows have entered.
    entered: usize,
    /// The numbers that no later row reaches, falling, each with the place of its row in the log.
    falling: VecDeque<(usize, i32)>,
}

impl Window {
    fn new(rows: usize) -> Self {
        Window {
            truths: vec![false; rows],
            oldest: 0,
            count: 0,
            entered: 0,
            falling: VecDeque::with_capacity(rows),
        }
    }

    /// Lets a row enter, and the oldest one leave; gives the figures.
    fn enter(&mut self, is_true: bool, number: Option<i32>) -> [i32; FIGURES] {
        let left = std::mem::replace(&mut self.truths[self.oldest], is_true);
        self.oldest += 1;
        if self.oldest == self.truths.len() {
            self.oldest = 0;
        }
        self.count = self.count + usize::from(is_true) - usize::from(left);
        let is_left = |&(row, _): &(usize, i32)| row + self.truths.len() <= self.entered;
        if self.falling.front().is_some_and(is_left) {
            self.falling.pop_front();
        }
        if let Some(number) = number {
            while self.falling.back().is_some_and(|&(_, old)| old <= number) {
                self.falling.pop_back();
            }
            self.falling.push_back((self.entered, number));
        }
        self.entered += 1;
        in_cells(self.count, self.falling.front().map(|&(_, number)| number))
    }
}
