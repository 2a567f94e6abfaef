//! Joins, and runs of the models that they write.

use bench::calls::{Call, Join, Store, FIRE, MARKS, START, UNDO};
use bench::ffi::LIBRARY;
use bench::joined::{mark_together, Beside};
use bench::limits::AtLimit;
use bench::model_gen;
use bench::random::Random;
use bench::tree::{self, Model};

use crate::tally::{Tally, JOIN};
use crate::{Case, Pair};

/// The joins of a random model.
const JOINS: usize = 2;

/// Random joins in the model of a case and in a twin, or in its damaged file.
pub fn compare(tally: &mut Tally, random: &mut Random, case: &Case) {
    for _ in 0..JOINS {
        let (model, join) = model_gen::join(random, &case.model);
        if case.twin.is_none() {
            let name = format!("{} join", case.name);
            crate::compare(tally, JOIN, &name, [&case.file; 2], &join);
            continue;
        }
        let both = Both {
            name: format!("{} join", case.name),
            twin: model.shuffled(random).encode(),
            file: model.encode(),
            model,
            join,
        };
        both.compare(tally, random);
    }
}

/// Joins in a model at a limit; in each new model transitions are fired.
pub fn compare_at_limit(tally: &mut Tally, case: &AtLimit) {
    let file = case.model.encode();
    for join in case.joins() {
        let name = format!("{} join", case.name);
        let (answer, found) = crate::compare(tally, JOIN, &name, [&file; 2], &join);
        let members = (join.mandatory.cells(), join.optional.cells());
        let new = model_gen::joined(&case.model, members.0, members.1);
        if let (0, Ok(new)) = (answer, new) {
            let mut pair = Pair::new(found.written(), found.written(), &fitting_store(&new));
            pair.follow(tally, &name, &every_fire(new.transitions.len()));
        }
    }
}

/// A join in a model and in its twin.
struct Both {
    name: String,
    model: Model,
    file: Vec<u8>,
    twin: Vec<u8>,
    join: Join,
}

impl Both {
    fn compare(&self, tally: &mut Tally, random: &mut Random) {
        let twin = format!("{} twin", self.name);
        let mut perform =
            |name: &str, file: &[u8]| crate::compare(tally, JOIN, name, [file; 2], &self.join);
        let (answer, one) = perform(&self.name, &self.file);
        let (other, two) = perform(&twin, &self.twin);
        let mut wrong = Vec::new();
        if (answer, one.length.get()) != (other, two.length.get()) {
            wrong.push(format!("{answer} in the model, {other} in the twin"));
        } else if answer == 0 && tree::sorted(one.written()) != tree::sorted(two.written()) {
            wrong.push("the new models are no shuffles of each other".to_string());
        }
        tally.report(&self.name, &wrong);
        let members = (self.join.mandatory.cells(), self.join.optional.cells());
        let new = model_gen::joined(&self.model, members.0, members.1);
        if let (0, 0, Ok(new)) = (answer, other, new) {
            tally.joined += 1;
            let written = [one.written(), two.written()];
            self.compare_runs(tally, random, &new, written);
            self.compare_with_old(tally, random, &new, one.written());
        }
    }

    /// Lists of calls on the new model and on that of the twin: any calls on any run, and every transition fired.
    fn compare_runs(
        &self,
        tally: &mut Tally,
        random: &mut Random,
        new: &Model,
        written: [&[u8]; 2],
    ) {
        let any = (model_gen::store(random, new), model_gen::calls(random, new));
        let every = (fitting_store(new), every_fire(new.transitions.len()));
        for (store, calls) in [any, every] {
            for (name, given) in ["model", "twin"].into_iter().zip(written) {
                let mut pair = Pair::new(written[0], given, &store);
                pair.follow(tally, &format!("{}, new {name}", self.name), &calls);
            }
        }
    }

    /// The library's calls on the same run under the old model and under the new one, and the mark of the new
    /// transition by those of its members.
    fn compare_with_old(
        &self,
        tally: &mut Tally,
        random: &mut Random,
        new: &Model,
        written: &[u8],
    ) {
        let beside = Beside {
            old: &self.file,
            new: written,
            transitions: self.model.transitions.len(),
        };
        let mut run = model_gen::store(random, new);
        let mut calls = model_gen::calls(random, new);
        calls.extend(every_fire(new.transitions.len()));
        for call in calls {
            if !beside.is_old(call) {
                let answer = call.perform(&LIBRARY, written, &mut run);
                tally.count_call(call.row, answer, &run);
                continue;
            }
            let compared = beside.perform(&LIBRARY, call, &run);
            for answer in compared.answers {
                tally.count(call.row, answer);
            }
            match compared.wrong {
                Some(_) => tally.beside += 1,
                None => tally.apart += 1,
            }
            run = compared.run;
            let mut wrong = compared.wrong.unwrap_or_default();
            if compared.answers[1] == 0 && matches!(call.row, START | FIRE | UNDO) {
                wrong.extend(self.wrong_mark(&run));
            }
            let what = format!("{}, {} {}", self.name, call.name(), call.number);
            tally.report(&format!("{what} beside the old model"), &wrong);
        }
    }

    fn wrong_mark(&self, run: &Store) -> Option<String> {
        let marks = run.marks.cells();
        let found = marks[self.model.transitions.len()];
        let (mandatory, optional) = (self.join.mandatory.cells(), self.join.optional.cells());
        let wanted = mark_together(marks, mandatory, optional);
        (found != wanted).then(|| format!("mark of the new transition: {wanted} / {found}"))
    }
}

/// A run of this model that is still to be started.
fn fitting_store(model: &Model) -> Store {
    let transitions = model.transitions.len();
    let values = vec![7; model.variables().count()];
    Store::new(
        &values,
        &vec![9; transitions],
        &[9; 12],
        9,
        &vec![9; transitions],
    )
}

/// A start, and for each of so many transitions, or for some of very many: it is fired, the marks are copied, the step is
/// taken back.
fn every_fire(transitions: usize) -> Vec<Call> {
    let call = |row, number| Call { row, number };
    let mut calls = vec![call(START, 0)];
    for transition in 0..transitions {
        if transitions <= 300 || is_chosen(transition, transitions) {
            calls.extend([call(FIRE, transition), call(MARKS, 0), call(UNDO, 0)]);
        }
    }
    calls
}

/// The first ones, the last ones and those around 255.
fn is_chosen(transition: usize, transitions: usize) -> bool {
    transition < 4 || transition + 4 >= transitions || (254..=257).contains(&transition)
}
