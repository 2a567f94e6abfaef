//! The stored cases through the reference implementation.

use bench::calls::{Arguments, Call, FIRST_OUTSIDE};
use bench::program::{gtsrun, gtswide};
use bench::random::Random;
use bench::reference::{self, ENGINE};
use bench::stored::old::widened;
use bench::stored::{self, manners, Lent, LentCase, ListCase, ProgramCase, WindowsCase};

#[test]
fn checks() {
    let cases = stored::checks(&stored::text("checks.txt"));
    let (mut models, mut expressions) = (0, 0);
    for (place, case) in cases.iter().enumerate() {
        let found = reference::check(&case.model)
            .map(|sizes| sizes.to_array())
            .map_err(|refusal| refusal.number());
        assert_eq!(found, case.want, "model {place}");
        models += 1;
        for expression in &case.expressions {
            let found = reference::check_expression(
                &case.model,
                &expression.kinds,
                &expression.parameters,
                expression.wanted,
            )
            .map_or_else(|refusal| refusal.number(), |()| 0);
            assert_eq!(found, expression.want, "an expression beside model {place}");
            expressions += 1;
        }
    }
    assert_eq!((models, expressions), (300, 212));
}

#[test]
fn lists_of_calls() {
    let cases = stored::lists(&stored::text("calls.txt"));
    assert_eq!(lists_as_stored(&cases), (220, 2 * 3175));
    let earlier = manners::lists(manners::CALLS);
    assert_eq!(lists_as_stored(&earlier), (200, 2 * 2908));
}

/// Every list, with its model and with its twin; gives how many lists and calls there are.
fn lists_as_stored(cases: &[ListCase]) -> (usize, usize) {
    let mut calls = 0;
    for (place, case) in cases.iter().enumerate() {
        for model in [&case.model, &case.twin] {
            let mut store = case.lent.store();
            let mut lent = case.lent.clone();
            for case in &case.calls {
                let answer = case.call.perform(&ENGINE, model, &mut store);
                assert!(
                    case.want.holds(answer, &store),
                    "list {place}: {:?} answers {answer}",
                    case.call
                );
                if let Some(after) = &case.after {
                    lent.clone_from(after);
                }
                assert_eq!(
                    Lent::of(&store),
                    lent,
                    "list {place}: after {:?}",
                    case.call
                );
                calls += 1;
            }
        }
    }
    (cases.len(), calls)
}

#[test]
fn programs() {
    let cases = stored::programs(&stored::text("programs.txt"));
    assert_eq!(programs_as_stored(&cases), 200);
    let earlier = manners::programs(manners::PROGRAMS);
    assert_eq!(programs_as_stored(&earlier), 200);
}

/// Every run; gives how many there are.
fn programs_as_stored(cases: &[ProgramCase]) -> usize {
    for (place, case) in cases.iter().enumerate() {
        let output = gtsrun(&ENGINE, &case.model, &case.input);
        assert_eq!(
            output,
            String::from_utf8_lossy(&case.output),
            "program {place}"
        );
    }
    cases.len()
}

#[test]
fn wide_runs() {
    let cases = stored::wide_runs(&stored::text("gtswide.txt"));
    let mut accepted = 0;
    for (place, case) in cases.iter().enumerate() {
        let output = gtswide(&ENGINE, &case.input);
        assert!(output == case.output, "run {place} of gtswide");
        if reference::check(&output).is_ok() {
            assert_eq!(output, widened(&case.input), "run {place} of gtswide");
            accepted += 1;
        }
    }
    assert_eq!((cases.len(), accepted), (150, 102));
}

/// Every case of a call; gives how many there are, and how many of them are accepted.
fn cases_as_stored<A: Arguments>(what: &str, cases: &[LentCase<A>]) -> (usize, usize) {
    for (place, case) in cases.iter().enumerate() {
        let (_, wrong) = case.perform(&ENGINE, &case.model);
        assert_eq!(wrong, [""; 0], "{what} {place}");
    }
    let accepted = cases.iter().filter(|case| case.want == 0);
    (cases.len(), accepted.count())
}

#[test]
fn texts() {
    let cases = stored::texts(&stored::text("texts.txt"));
    assert_eq!(cases_as_stored("text", &cases), (447, 149));
}

#[test]
fn values() {
    let cases = stored::values(&stored::text("values.txt"));
    let call = Call {
        row: FIRST_OUTSIDE,
        number: 0,
    };
    for (place, case) in cases.iter().enumerate() {
        let mut store = case.lent.clone();
        let answer = call.perform(&ENGINE, &case.model, &mut store);
        assert_eq!(answer, case.want, "values {place}");
        let wrong = case.after.differences(&store);
        assert_eq!(wrong, [""; 0], "values {place}");
        assert!(store.intact(), "values {place}");
    }
    let accepted = cases.iter().filter(|case| case.want == 0).count();
    let outside = |case: &&stored::ValuesCase| case.after.found.get() == 1;
    let outside = cases.iter().filter(outside).count();
    assert_eq!((cases.len(), accepted, outside), (126, 117, 72));
}

#[test]
fn joins() {
    let cases = stored::joins(&stored::text("joins.txt"));
    assert_eq!(cases_as_stored("join", &cases), (121, 66));
}

/// Those of windows, each with its twin too.
#[test]
fn windows() {
    let cases = stored::windows(&stored::text("windows.txt"));
    assert_eq!(cases_as_stored("windows", &cases), (200, 92));
    let mut random = Random::new(0);
    let twins: Vec<WindowsCase> = cases.iter().map(|case| case.twin(&mut random)).collect();
    assert_eq!(cases_as_stored("twin of windows", &twins), (200, 92));
}
