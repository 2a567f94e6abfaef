//! The stored windows over the rows of a log.

use super::{all, number, LentCase, Source};
use crate::calls::{Handed, Log};
use crate::model_gen;
use crate::random::Random;

/// A call on the rows of a log.
pub type WindowsCase = LentCase<Log>;

pub fn windows(text: &str) -> Vec<WindowsCase> {
    all(text, windows_case)
}

impl WindowsCase {
    /// The same with a shuffled model and shuffled expressions.
    pub fn twin(&self, random: &mut Random) -> Self {
        let (model, lent) = model_gen::twins(random, &self.model, &self.lent);
        let after = Log {
            figures: self.after.figures.clone(),
            count: self.after.count.clone(),
            ..lent.clone()
        };
        LentCase {
            model,
            lent,
            want: self.want,
            after,
        }
    }
}

fn windows_case(source: &mut Source) -> WindowsCase {
    /// What the count's cell holds before the call.
    const COUNT: usize = 99_999;
    let model = source.list("model");
    let rows: Vec<i32> = source.list("rows");
    let window = number(source.words("window").next());
    let mut handed = || Handed::new(&source.list("kinds"), &source.list("params"));
    let expressions = [handed(), handed()];
    let figures: Vec<i32> = source.filled("out");
    let lent = Log::new(expressions, window, &rows, &figures, COUNT);
    let mut after = lent.clone();
    let mut words = source.words("want");
    let want = match words.next() {
        Some("rows") => {
            *after.count.get_mut() = number(words.next());
            let cells: Vec<i32> = source.list("cells");
            after.figures.cells_mut()[..cells.len()].copy_from_slice(&cells);
            0
        }
        Some("no") => number(words.next()),
        other => panic!("what windows want: {other:?}"),
    };
    LentCase {
        model,
        lent,
        want,
        after,
    }
}
