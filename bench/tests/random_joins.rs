//! Random joins through the reference implementation, and runs of the models that they write.

use std::collections::BTreeMap;

use bench::calls::{Arguments, Call, Join, Store, FIRE, START};
use bench::joined::{mark_together, Beside};
use bench::model_gen::{self, joined};
use bench::random::Random;
use bench::reference::{self, ENGINE};
use bench::tree::{self, Model};

/// A random join in a random model.
fn random_join(random: &mut Random) -> (Model, Join) {
    let shape = model_gen::shape(random);
    let model = model_gen::model(random, shape);
    model_gen::join(random, &model)
}

/// What a join answers: the file that it wrote or its refusal. A refusal leaves everything, and the cells after the new
/// model stay.
fn performed(file: &[u8], before: &Join) -> Result<Vec<u8>, u8> {
    let mut join = before.clone();
    let answer = join.perform(&ENGINE, file);
    assert!(join.intact());
    if answer != 0 {
        assert_eq!(join.differences(before), [""; 0]);
        return Err(answer);
    }
    let length = join.length.get();
    assert_eq!(join.out.cells()[length..], before.out.cells()[length..]);
    Ok(join.written().to_vec())
}

/// What a join in a tree answers, its slice included.
fn wanted(model: &Model, join: &Join) -> Result<Vec<u8>, u8> {
    let new = joined(model, join.mandatory.cells(), join.optional.cells())?;
    let file = new.encode();
    let is_long_enough = file.len() <= join.out.cells().len();
    is_long_enough.then_some(file).ok_or(36)
}

/// The edges that a join is at: limits that the new model passes or just keeps, and how long the slice is.
fn reasons(model: &Model, join: &Join) -> Vec<&'static str> {
    let (mandatory, optional) = (join.mandatory.cells(), join.optional.cells());
    let small = Model {
        events: model.events.min(65_534),
        ..model.clone()
    };
    let Ok(new) = joined(&small, mandatory, optional) else {
        let is_long = mandatory.len() + optional.len() > 500;
        return Vec::from_iter(is_long.then_some("many members"));
    };
    let (length, cells) = (new.encode().len(), join.out.cells().len());
    let met = [
        (model.events == 65_535, "E"),
        (new.events == 256, "256 events"),
        (new.transitions.len() == 256, "256 transitions"),
        (cells + 1 == length, "one cell short"),
        (cells + 1 < length, "shorter"),
        (cells == length, "exact"),
        (cells > length, "longer"),
        (length == 60_010, "12,000 nodes"),
        (new.depth() == 32, "depth 32"),
    ];
    let met = met.into_iter().filter(|&(met, _)| met);
    met.map(|(_, reason)| reason).collect()
}

/// The files are those of the trees; a shuffled model gives the same answer, and a shuffle of the other file.
#[test]
fn joins_are_those_of_trees() {
    let mut random = Random::new(11);
    let mut answers: BTreeMap<u8, usize> = BTreeMap::new();
    let mut met: BTreeMap<&str, usize> = BTreeMap::new();
    for _ in 0..12_000 {
        let (model, join) = random_join(&mut random);
        let found = performed(&model.encode(), &join);
        assert_eq!(found, wanted(&model, &join));
        let twin = model.shuffled(&mut random).encode();
        let other = performed(&twin, &join);
        match (&found, &other) {
            (Ok(one), Ok(two)) => assert_eq!(tree::sorted(one), tree::sorted(two)),
            _ => assert_eq!(found, other),
        }
        *answers.entry(found.err().unwrap_or(0)).or_default() += 1;
        for reason in reasons(&model, &join) {
            *met.entry(reason).or_default() += 1;
        }
    }
    println!("{answers:?} {met:?}");
    assert_eq!(answers.keys().copied().collect::<Vec<_>>(), [0, 11, 35, 36]);
    assert!(answers.values().all(|&times| times > 300), "{answers:?}");
    assert_eq!(met.len(), 10, "{met:?}");
    assert!(met.values().all(|&times| times > 50), "{met:?}");
}

/// A refused file is refused by its check's number, whatever is lent.
#[test]
fn refused_models() {
    let mut random = Random::new(12);
    let mut refused = 0;
    for _ in 0..4_000 {
        let (model, join) = random_join(&mut random);
        let file = model_gen::damaged(&mut random, &model.encode());
        let found = performed(&file, &join);
        if let Err(refusal) = reference::check(&file) {
            assert_eq!(found, Err(refusal.number()));
            refused += 1;
        }
    }
    assert!(refused > 2_000, "{refused} refused");
}

/// A start of this model, and then the calls of a random list; gives the runs that these left, the start's first.
fn moments(random: &mut Random, model: &Model, file: &[u8]) -> Vec<Store> {
    let transitions = model.transitions.len();
    let mut store = Store::new(
        &vec![7; model.variables().count()],
        &vec![9; transitions + random.below(3)],
        &[9; 12],
        0,
        &vec![9; transitions],
    );
    let start = Call {
        row: START,
        number: 0,
    };
    if start.perform(&ENGINE, file, &mut store) != 0 {
        return Vec::new();
    }
    let mut moments = vec![store.clone()];
    for call in model_gen::calls(random, model) {
        if call.perform(&ENGINE, file, &mut store) == 0 {
            moments.push(store.clone());
        }
    }
    moments
}

/// The lists of members and the trees of a random join that is accepted.
fn accepted_join(random: &mut Random) -> Option<(Model, Join, Model)> {
    let (model, join) = random_join(random);
    let new = joined(&model, join.mandatory.cells(), join.optional.cells()).ok()?;
    Some((model, join, new))
}

/// With mandatory members the mark of the new transition is 0 if one of theirs is 0, else 2 if one is 2, else 1; with
/// optional ones alone it is 1 if one is 1, else 2 if one is 2, else 0.
#[test]
fn marks_together() {
    let mut random = Random::new(13);
    let mut met: BTreeMap<(bool, u8), usize> = BTreeMap::new();
    for _ in 0..12_000 {
        let Some((model, join, new)) = accepted_join(&mut random) else {
            continue;
        };
        let (mandatory, optional) = (join.mandatory.cells(), join.optional.cells());
        for moment in moments(&mut random, &new, &new.encode()) {
            let marks = moment.marks.cells();
            let mark = marks[model.transitions.len()];
            assert_eq!(mark, mark_together(marks, mandatory, optional));
            *met.entry((mandatory.is_empty(), mark)).or_default() += 1;
        }
    }
    println!("{met:?}");
    assert_eq!(met.len(), 6);
    assert!(met.values().all(|&times| times > 50), "{met:?}");
}

/// How often the effects of a join were compared: of accepted fires, with a guard that failed (25 and 39), and with one that
/// is false.
#[derive(Debug, Default)]
struct Effects {
    fired: usize,
    failed: [usize; 2],
    left_out: usize,
}

/// What firing a transition answers, and the run that it leaves.
fn fired(file: &[u8], moment: &Store, number: usize) -> (u8, Store) {
    let mut run = moment.clone();
    let answer = Call { row: FIRE, number }.perform(&ENGINE, file, &mut run);
    (answer, run)
}

/// The answer where guards of optional members failed, by what each of these answers alone and what the others answer
/// together: a zero divisor wins.
fn failed_together(alone: &[u8], others: u8) -> u8 {
    assert!(alone.iter().all(|answer| matches!(answer, 24 | 38)));
    if alone.contains(&24) || others == 25 {
        25
    } else {
        39
    }
}

impl Effects {
    /// Fires the new transition at a moment where its guard is true.
    fn compare(&mut self, model: &Model, join: &Join, file: &[u8], moment: &Store) {
        let (mandatory, optional) = (join.mandatory.cells(), join.optional.cells());
        let marks = moment.marks.cells();
        let new = model.transitions.len();
        let marked = |mark| {
            optional
                .iter()
                .filter(move |&&member| marks[member] == mark)
        };
        let members: Vec<usize> = mandatory.iter().chain(marked(1)).copied().collect();
        // So many mandatory guards may be too deep.
        let Ok(plain) = joined(model, &members, &[]) else {
            return;
        };
        let (answer, run) = fired(file, moment, new);
        let (plain_answer, plain_run) = fired(&plain.encode(), moment, new);
        let alone: Vec<u8> = marked(2)
            .map(|&member| fired(file, moment, member).0)
            .collect();
        if !alone.is_empty() {
            assert_eq!(answer, failed_together(&alone, plain_answer));
            self.failed[usize::from(answer == 39)] += 1;
            return;
        }
        assert_eq!(plain_answer, answer);
        assert_eq!(run.values.cells(), plain_run.values.cells());
        self.fired += usize::from(answer == 0);
        self.left_out += usize::from(members.len() < mandatory.len() + optional.len());
    }
}

/// An optional member whose guard is true is as a mandatory one, one whose guard is false as none; one whose guard failed
/// gives 25 or 39, by the manner.
#[test]
fn effects_together() {
    let mut random = Random::new(14);
    let mut effects = Effects::default();
    for _ in 0..6_000 {
        let Some((model, join, new)) = accepted_join(&mut random) else {
            continue;
        };
        let file = new.encode();
        for moment in moments(&mut random, &new, &file) {
            let is_fireable = moment.marks.cells()[model.transitions.len()] == 1;
            if is_fireable && moment.n.get() < moment.history.cells().len() {
                effects.compare(&model, &join, &file, &moment);
            }
        }
    }
    println!("{effects:?}");
    assert!(effects.fired > 1_000, "{effects:?}");
    assert!(
        effects.failed.iter().all(|&times| times > 100),
        "{effects:?}"
    );
    assert!(effects.left_out > 500, "{effects:?}");
}

/// On runs that 10 and 20 refuse under neither model, old transitions answer as before and leave the same; so do start,
/// undo and value.
#[test]
fn old_transitions_stay() {
    let mut random = Random::new(15);
    let mut answers: BTreeMap<u8, usize> = BTreeMap::new();
    for _ in 0..6_000 {
        let Some((model, _, new)) = accepted_join(&mut random) else {
            continue;
        };
        let (old, file) = (model.encode(), new.encode());
        let beside = Beside {
            old: &old,
            new: &file,
            transitions: model.transitions.len(),
        };
        let mut run = model_gen::store(&mut random, &new);
        for call in model_gen::calls(&mut random, &new) {
            if !beside.is_old(call) {
                call.perform(&ENGINE, &file, &mut run);
                continue;
            }
            let compared = beside.perform(&ENGINE, call, &run);
            if let Some(wrong) = compared.wrong {
                assert_eq!(wrong, [""; 0], "{call:?}");
                *answers.entry(compared.answers[1]).or_default() += 1;
            }
            run = compared.run;
        }
    }
    println!("{answers:?}");
    for answer in [0, 9, 11, 12].into_iter().chain(21..=31).chain(38..=40) {
        assert!(answers.contains_key(&answer), "{answer} is not met");
    }
}
