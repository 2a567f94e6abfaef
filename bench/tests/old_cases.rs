//! The stored cases with old files: the refused ones through gtswide, the others rewritten, with the old answers. Failures have
//! today's numbers.

use bench::calls::{Arguments, Call, FIRST_OUTSIDE};
use bench::program::gtsrun;
use bench::reference::{self, ENGINE};
use bench::stored::old::{refusal_of_file, rewritten_file, widened, CALL_FILES, PROGRAM_FILES};
use bench::stored::{self, manners, JoinCase, Lent, ListCase};

/// The rewritten file, or none where the old check refuses the old one by this number.
fn rewritten(old: &[u8], refused: Option<u8>) -> Option<Vec<u8>> {
    rewritten_file(&ENGINE, old, refused).expect("as stored")
}

#[test]
fn checks() {
    let cases = stored::checks(&stored::text("old/checks.txt"));
    let (mut accepted, mut expressions) = (0, 0);
    for case in &cases {
        let Some(model) = rewritten(&case.model, case.want.err()) else {
            continue;
        };
        let sizes = reference::check(&model).map(|sizes| sizes.to_array());
        assert_eq!(sizes.map_err(|refusal| refusal.number()), case.want);
        accepted += 1;
        for each in &case.expressions {
            let found =
                reference::check_expression(&model, &each.kinds, &each.parameters, each.wanted);
            assert_eq!(
                found.map_or_else(|refusal| refusal.number(), |()| 0),
                each.want
            );
            expressions += 1;
        }
    }
    assert_eq!((cases.len(), accepted, expressions), (800, 243, 368));
}

/// The calls of a list, which must answer as stored and leave what is stored; gives how many there are.
fn follow(case: &ListCase, model: &[u8]) -> usize {
    let mut store = case.lent.store();
    let mut lent = case.lent.clone();
    for case in &case.calls {
        let answer = case.call.perform(&ENGINE, model, &mut store);
        assert!(case.want.holds(answer, &store), "{:?}", case.call);
        if let Some(after) = &case.after {
            lent.clone_from(after);
        }
        assert_eq!(Lent::of(&store), lent, "{:?}", case.call);
    }
    case.calls.len()
}

/// How many lists there are, how many of them have an accepted model, and how many calls these have.
fn lists_as_stored(name: &str) -> [usize; 3] {
    let cases = manners::lists(name);
    let (mut accepted, mut calls) = (0, 0);
    for case in &cases {
        for old in [&case.model, &case.twin] {
            if let Some(model) = rewritten(old, case.refused()) {
                calls += follow(case, &model);
                accepted += 1;
            }
        }
    }
    [cases.len(), accepted, calls]
}

#[test]
fn lists_of_calls() {
    let counts = CALL_FILES.map(lists_as_stored);
    assert_eq!(
        counts,
        [[220, 420, 6136], [246, 472, 6878], [60, 120, 1634]]
    );
}

/// How many runs there are, how many of them have an accepted model, and how many lines of `f` with 4 or 5 digits were left
/// out of these.
fn programs_as_stored(name: &str) -> [usize; 3] {
    let mut cases = manners::programs(name);
    let (mut accepted, mut dropped) = (0, 0);
    for case in &mut cases {
        if let Some(model) = rewritten(&case.model, case.refused()) {
            dropped += case.drop_long_fires();
            let output = gtsrun(&ENGINE, &model, &case.input);
            assert_eq!(output, String::from_utf8_lossy(&case.output));
            accepted += 1;
        }
    }
    [cases.len(), accepted, dropped]
}

#[test]
fn programs() {
    let counts = PROGRAM_FILES.map(programs_as_stored);
    assert_eq!(counts, [[150, 129, 1], [500, 381, 5]]);
}

#[test]
fn texts() {
    let cases = stored::texts(&stored::text("old/texts.txt"));
    let mut accepted = 0;
    for case in &cases {
        if let Some(model) = rewritten(&case.model, refusal_of_file(case.want)) {
            assert_eq!(case.perform(&ENGINE, &model).1, [""; 0]);
            accepted += 1;
        }
    }
    assert_eq!((cases.len(), accepted), (767, 764));
}

#[test]
fn values() {
    let cases = stored::values(&stored::text("old/values.txt"));
    let call = Call {
        row: FIRST_OUTSIDE,
        number: 0,
    };
    let mut accepted = 0;
    for case in &cases {
        if let Some(model) = rewritten(&case.model, refusal_of_file(case.want)) {
            let mut store = case.lent.clone();
            assert_eq!(call.perform(&ENGINE, &model, &mut store), case.want);
            assert_eq!(case.after.differences(&store), [""; 0]);
            accepted += 1;
        }
    }
    assert_eq!((cases.len(), accepted), (406, 382));
}

/// A join in the rewritten file writes what it wrote, rewritten; gives whether one that an old limit refused is accepted.
fn join_as_stored(case: &JoinCase, model: &[u8]) -> bool {
    let lent = case.lent_wide();
    let mut join = lent.clone();
    let answer = join.perform(&ENGINE, model);
    assert!(join.intact());
    if case.want == 36 && answer == 0 {
        let sizes = reference::check(join.written()).expect("accepted");
        assert!(sizes.events.max(sizes.transitions) > 255 || sizes.nodes > 4_000);
        return true;
    }
    assert_eq!(answer, case.want);
    let mut after = lent;
    if answer == 0 {
        let written = widened(case.after.written());
        *after.length.get_mut() = written.len();
        after.out.cells_mut()[..written.len()].copy_from_slice(&written);
    }
    assert_eq!(after.differences(&join), [""; 0]);
    false
}

#[test]
fn joins() {
    let cases = stored::joins(&stored::text("old/joins.txt"));
    let (mut accepted, mut newly) = (0, 0);
    for case in &cases {
        if let Some(model) = rewritten(&case.model, refusal_of_file(case.want)) {
            newly += usize::from(join_as_stored(case, &model));
            accepted += 1;
        }
    }
    assert_eq!((cases.len(), accepted, newly), (308, 303, 3));
}
