//! Windows over the rows of random logs.

use bench::model_gen;
use bench::random::Random;

use crate::tally::{Tally, WINDOWS};
use crate::Case;

/// The logs of a random model.
const LOGS: usize = 2;

/// Random logs beside a model and beside a twin, whose expressions are shuffled too; or beside the damaged file.
pub fn compare(tally: &mut Tally, random: &mut Random, case: &Case) {
    for _ in 0..LOGS {
        let log = model_gen::log(random, &case.model);
        let name = format!("{} windows", case.name);
        let (answer, found) = crate::compare(tally, WINDOWS, &name, [&case.file; 2], &log);
        if case.twin.is_none() {
            continue;
        }
        let (model, log) = model_gen::twins(random, &case.file, &log);
        let name = format!("{name} twin");
        let (other, twin) = crate::compare(tally, WINDOWS, &name, [&model; 2], &log);
        if (answer, found.figures, found.count) != (other, twin.figures, twin.count) {
            let wrong = format!("{answer} in the model, {other} in the twin, or other figures");
            tally.report(&name, &[wrong]);
        }
    }
}
