//! The stored cases through the C calls.

use bench::calls::{Arguments, Call, CHECK, FIRST_OUTSIDE};
use bench::ffi::LIBRARY;
use bench::guarded::Guarded;
use bench::program::{gtsrun, gtswide};
use bench::random::Random;
use bench::stored::old::{self, refusal_of_file, rewritten_file};
use bench::stored::{
    self, manners, CheckCase, Lent, LentCase, ListCase, ProgramCase, TextCase, ValuesCase,
};

use crate::tally::{Tally, JOIN, REWRITE, TEXT, WINDOWS};
use crate::Pair;

pub fn compare(tally: &mut Tally) {
    let checks = checks(tally);
    let lists = lists(tally);
    let programs = programs(tally);
    let wide_runs = wide_runs(tally);
    let texts = texts(tally);
    let values = values(tally);
    let joins = joins(tally);
    let logs = logs(tally);
    println!(
        "stored: {checks} checks, {lists} lists of calls with their twins, {programs} programs, {wide_runs} runs of gtswide, {texts} texts, {values} values slices, {joins} joins, {logs} logs with their twins: {} calls, {} differ",
        tally.calls, tally.differ
    );
    let old = compare_old(tally);
    println!(
        "stored with old files: {old} of them rewritten: {} calls, {} differ",
        tally.calls, tally.differ
    );
}

/// The stored cases with old files: rewritten by the library, or refused by it as stored; gives how many were rewritten.
fn compare_old(tally: &mut Tally) -> usize {
    let lists = old::CALL_FILES.map(|file| old_lists(tally, file));
    let programs = old::PROGRAM_FILES.map(|file| old_programs(tally, file));
    let others = [
        old_checks(tally),
        old_texts(tally),
        old_values(tally),
        old_joins(tally),
    ];
    lists.iter().chain(&programs).chain(&others).sum()
}

/// The file that the library writes for an old one; what is wrong is reported.
fn rewritten(tally: &mut Tally, name: &str, old: &[u8], refused: Option<u8>) -> Option<Vec<u8>> {
    tally.count(REWRITE, refused.unwrap_or(0));
    match rewritten_file(&LIBRARY, old, refused) {
        Ok(found) => found,
        Err(wrong) => {
            tally.report(name, &[wrong]);
            None
        }
    }
}

/// Each case whose old file is rewritten, run with the new file; gives how many. Of a case its old file is told, and what refuses that.
fn rewritten_cases<C>(
    tally: &mut Tally,
    cases: Vec<C>,
    name: &str,
    old: impl Fn(&C) -> (&[u8], Option<u8>),
    mut run: impl FnMut(&mut Tally, &str, C, Vec<u8>),
) -> usize {
    let mut count = 0;
    for (place, case) in cases.into_iter().enumerate() {
        let name = format!("{name} {place}");
        let (model, refused) = old(&case);
        if let Some(model) = rewritten(tally, &name, model, refused) {
            run(tally, &name, case, model);
            count += 1;
        }
    }
    count
}

fn old_checks(tally: &mut Tally) -> usize {
    rewritten_cases(
        tally,
        stored::checks(&stored::text("old/checks.txt")),
        "old/checks.txt, check",
        |case| (&case.model[..], case.want.err()),
        |tally, name, case, model| compare_check(tally, name, &CheckCase { model, ..case }),
    )
}

fn old_texts(tally: &mut Tally) -> usize {
    rewritten_cases(
        tally,
        stored::texts(&stored::text("old/texts.txt")),
        "old/texts.txt, text",
        |case| (&case.model[..], refusal_of_file(case.want)),
        |tally, name, case, model| compare_case(tally, TEXT, name, &TextCase { model, ..case }),
    )
}

fn old_values(tally: &mut Tally) -> usize {
    rewritten_cases(
        tally,
        stored::values(&stored::text("old/values.txt")),
        "old/values.txt, values",
        |case| (&case.model[..], refusal_of_file(case.want)),
        |tally, name, case, model| compare_values(tally, name, &ValuesCase { model, ..case }),
    )
}

fn old_lists(tally: &mut Tally, file: &str) -> usize {
    let mut count = 0;
    for (place, mut case) in manners::lists(file).into_iter().enumerate() {
        let name = format!("{file}, list {place}");
        let refused = case.refused();
        let model = rewritten(tally, &name, &case.model, refused);
        let twin = rewritten(tally, &name, &case.twin, refused);
        if let (Some(model), Some(twin)) = (model, twin) {
            (case.model, case.twin) = (model, twin);
            compare_both(tally, &name, &case);
            count += 2;
        }
    }
    count
}

fn old_programs(tally: &mut Tally, file: &str) -> usize {
    rewritten_cases(
        tally,
        manners::programs(file),
        &format!("{file}, program"),
        |case| (&case.model[..], case.refused()),
        |tally, name, mut case, model| {
            case.drop_long_fires();
            case.model = model;
            compare_program(tally, name, &case);
        },
    )
}

/// Joins in the rewritten files, as the Rust implementation makes them: an old limit may have been the reason of a refusal.
fn old_joins(tally: &mut Tally) -> usize {
    rewritten_cases(
        tally,
        stored::joins(&stored::text("old/joins.txt")),
        "old/joins.txt, join",
        |case| (&case.model[..], refusal_of_file(case.want)),
        |tally, name, case, model| {
            crate::compare(tally, JOIN, name, [&model; 2], &case.lent_wide());
        },
    )
}

fn wide_runs(tally: &mut Tally) -> usize {
    let runs = stored::wide_runs(&stored::text("gtswide.txt"));
    for (place, case) in runs.iter().enumerate() {
        let input = Guarded::new(&case.input);
        let output = gtswide(&LIBRARY, input.cells());
        let mut wrong = Vec::new();
        if output != case.output || input != Guarded::new(&case.input) {
            wrong.push("another output, or the input was written".to_string());
        }
        tally.report(&format!("run {place} of gtswide"), &wrong);
    }
    runs.len()
}

fn checks(tally: &mut Tally) -> usize {
    let checks = stored::checks(&stored::text("checks.txt"));
    for (place, case) in checks.iter().enumerate() {
        compare_check(tally, &format!("stored check {place}"), case);
    }
    checks.len()
}

fn compare_check(tally: &mut Tally, name: &str, case: &CheckCase) {
    let model = Guarded::new(&case.model);
    let mut sizes = Guarded::new(&[9; 5]);
    let answer = (LIBRARY.check)(model.cells(), sizes.cells_mut());
    tally.count(CHECK, answer);
    let (number, found) = match case.want {
        Ok(sizes) => (0, sizes),
        Err(number) => (number, [9; 5]),
    };
    let wanted = (number, Guarded::new(&found), Guarded::new(&case.model));
    let mut wrong = Vec::new();
    if (answer, &sizes, &model) != (wanted.0, &wanted.1, &wanted.2) {
        wrong.push(format!("answers {answer} {:?}", sizes.cells()));
    }
    tally.report(name, &wrong);
}

fn lists(tally: &mut Tally) -> usize {
    let mut lists = stored::lists(&stored::text("calls.txt"));
    lists.extend(manners::lists(manners::CALLS));
    for (place, case) in lists.iter().enumerate() {
        compare_both(tally, &format!("list {place}"), case);
    }
    lists.len()
}

/// A stored list with its model and with its twin.
fn compare_both(tally: &mut Tally, name: &str, case: &ListCase) {
    for given in [&case.model, &case.twin] {
        compare_list(tally, name, case, given);
    }
}

/// A stored list with its model or its twin, up to the first call that differs.
fn compare_list(tally: &mut Tally, name: &str, case: &ListCase, given: &[u8]) {
    let mut pair = Pair::new(&case.model, given, &case.lent.store());
    let mut lent = case.lent.clone();
    for case in &case.calls {
        let (answer, mut wrong) = pair.perform(case.call);
        tally.count_call(case.call.row, answer, &pair.found);
        if let Some(after) = &case.after {
            lent.clone_from(after);
        }
        if !case.want.holds(answer, &pair.found) || Lent::of(&pair.found) != lent {
            wrong.push(format!("not as stored, answers {answer}"));
        }
        let call = format!("{} {}", case.call.name(), case.call.number);
        tally.report(&format!("{name}, {call}"), &wrong);
        if !wrong.is_empty() {
            return;
        }
    }
}

fn programs(tally: &mut Tally) -> usize {
    let mut programs = stored::programs(&stored::text("programs.txt"));
    programs.extend(manners::programs(manners::PROGRAMS));
    for (place, case) in programs.iter().enumerate() {
        compare_program(tally, &format!("program {place}"), case);
    }
    programs.len()
}

fn compare_program(tally: &mut Tally, name: &str, case: &ProgramCase) {
    let model = Guarded::new(&case.model);
    let output = gtsrun(&LIBRARY, model.cells(), &case.input);
    let mut wrong = Vec::new();
    if output.as_bytes() != case.output || model != Guarded::new(&case.model) {
        wrong.push("another output, or the model was written".to_string());
    }
    tally.report(name, &wrong);
}

fn texts(tally: &mut Tally) -> usize {
    let texts = stored::texts(&stored::text("texts.txt"));
    for (place, case) in texts.iter().enumerate() {
        let text = case.lent.text.cells().escape_ascii();
        compare_case(tally, TEXT, &format!("stored text {place}, {text}"), case);
    }
    texts.len()
}

/// A stored case of a call.
fn compare_case<A: Arguments>(tally: &mut Tally, column: usize, name: &str, case: &LentCase<A>) {
    let model = Guarded::new(&case.model);
    let (answer, mut wrong) = case.perform(&LIBRARY, model.cells());
    tally.count(column, answer);
    if model != Guarded::new(&case.model) {
        wrong.push("the model was written".to_string());
    }
    tally.report(name, &wrong);
}

fn values(tally: &mut Tally) -> usize {
    let cases = stored::values(&stored::text("values.txt"));
    for (place, case) in cases.iter().enumerate() {
        compare_values(tally, &format!("stored values {place}"), case);
    }
    cases.len()
}

fn compare_values(tally: &mut Tally, name: &str, case: &ValuesCase) {
    let call = Call {
        row: FIRST_OUTSIDE,
        number: 0,
    };
    let model = Guarded::new(&case.model);
    let mut found = case.lent.clone();
    let answer = call.perform(&LIBRARY, model.cells(), &mut found);
    tally.count_call(call.row, answer, &found);
    let mut wrong = case.after.differences(&found);
    if answer != case.want {
        wrong.push(format!("answer: {} / {answer}", case.want));
    }
    if !found.intact() || model != Guarded::new(&case.model) {
        wrong.push("guard cells or the model were written".to_string());
    }
    tally.report(name, &wrong);
}

fn joins(tally: &mut Tally) -> usize {
    let joins = stored::joins(&stored::text("joins.txt"));
    for (place, case) in joins.iter().enumerate() {
        compare_case(tally, JOIN, &format!("stored join {place}"), case);
    }
    joins.len()
}

/// Each with its twin.
fn logs(tally: &mut Tally) -> usize {
    let logs = stored::windows(&stored::text("windows.txt"));
    let mut random = Random::new(0);
    for (place, case) in logs.iter().enumerate() {
        let name = format!("stored windows {place}");
        compare_case(tally, WINDOWS, &name, case);
        compare_case(
            tally,
            WINDOWS,
            &format!("{name} twin"),
            &case.twin(&mut random),
        );
    }
    logs.len()
}
