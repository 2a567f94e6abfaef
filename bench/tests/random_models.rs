//! Random models and lists of calls through the reference implementation.

use std::collections::BTreeMap;

use bench::calls::{Call, Store, PICK, START, TABLE};
use bench::model_gen::{self, SHAPES};
use bench::random::Random;
use bench::reference::{self, ENGINE};
use bench::tree::Model;

#[test]
fn models_of_every_shape_are_accepted() {
    let mut random = Random::new(1);
    for shape in SHAPES {
        let (mut largest, mut deepest, mut started) = (0, 0, 0);
        for _ in 0..60 {
            let model = model_gen::model(&mut random, shape);
            let file = model.encode();
            let nodes = model.nodes().len();
            let wanted = [
                model.states.len() as u32,
                model.flows.len() as u32,
                model.events.into(),
                model.transitions.len() as u32,
                nodes as u32,
            ];
            let sizes = reference::check(&file).map(|sizes| sizes.to_array());
            assert_eq!(sizes, Ok(wanted), "{shape:?}");
            let (mut values, mut marks, mut n) = ([0; 4_000], [0; 3_999], 0);
            let start = reference::start(&file, &mut values, &mut marks, &mut n);
            started += usize::from(start.is_ok());
            largest = largest.max(nodes);
            deepest = deepest.max(model.depth());
        }
        println!("{shape:?}: {largest} nodes, {deepest} deep, {started} of 60 start");
        assert!(started >= 20, "{shape:?}: {started} of 60 start");
    }
}

/// Each call's answers to models that are accepted.
const ANSWERS: [(&str, &[u8]); 8] = [
    ("check", &[0, 10]),
    ("start", &[0, 9, 10, 28, 29, 30, 40]),
    (
        "fire",
        &[
            0, 9, 10, 11, 20, 21, 23, 24, 25, 26, 27, 28, 29, 30, 38, 39, 40,
        ],
    ),
    ("undo", &[0, 9, 10, 20, 22, 31]),
    ("marks", &[0, 9, 10, 20]),
    ("value", &[0, 9, 10, 12, 20]),
    ("pick", &[0, 9, 10, 20]),
    ("first_outside", &[0, 9]),
];

#[test]
fn shuffled_models_and_refusals() {
    let mut random = Random::new(2);
    let mut answers: BTreeMap<(&str, u8), usize> = BTreeMap::new();
    for _ in 0..4_000 {
        let shape = model_gen::shape(&mut random);
        let model = model_gen::model(&mut random, shape);
        let file = model.encode();
        let twin = model.shuffled(&mut random).encode();
        let mut one = model_gen::store(&mut random, &model);
        let mut two = one.clone();
        for call in model_gen::calls(&mut random, &model) {
            let before = one.clone();
            let answer = call.perform(&ENGINE, &file, &mut one);
            assert_eq!(answer, call.perform(&ENGINE, &twin, &mut two), "{call:?}");
            assert_eq!(one.differences(&two), [""; 0], "{call:?}");
            if answer != 0 {
                assert_eq!(one.differences(&before), [""; 0], "{call:?}");
            }
            *answers.entry((call.name(), answer)).or_default() += 1;
        }
    }
    println!("{answers:?}");
    for (call, wanted) in ANSWERS {
        let met: Vec<u8> = answers
            .keys()
            .filter(|(name, _)| *name == call)
            .map(|&(_, answer)| answer)
            .collect();
        assert_eq!(met, wanted, "the answers of {call}");
    }
}

/// After an accepted start neither 20 nor 31 occurs, and an undo gives the values and the marks back.
#[test]
fn runs_stay_consistent() {
    let mut random = Random::new(3);
    let mut undone = 0;
    for _ in 0..2_000 {
        let shape = model_gen::shape(&mut random);
        let model = model_gen::model(&mut random, shape);
        let file = model.encode();
        let places = random.between(0, 12);
        let mut store = Store::new(
            &vec![7; model.variables().count()],
            &vec![8; model.transitions.len() + random.below(3)],
            &vec![65_535; places],
            99,
            &vec![9; model.transitions.len()],
        );
        let start = Call {
            row: START,
            number: 0,
        };
        if start.perform(&ENGINE, &file, &mut store) == 0 {
            let calls = model_gen::calls(&mut random, &model);
            undone += consistent_calls(&model, &file, &mut store, &calls);
        }
    }
    assert!(undone > 500, "{undone} undone");
}

/// Calls on a run that was started; gives how many steps were undone.
fn consistent_calls(model: &Model, file: &[u8], store: &mut Store, calls: &[Call]) -> usize {
    let held = |store: &Store| (store.values.cells().to_vec(), store.marks.cells().to_vec());
    let mut undone = 0;
    // The values and the marks at the start and after each step.
    let mut moments = vec![held(store)];
    for call in calls {
        let answer = call.perform(&ENGINE, file, store);
        assert!(!matches!(answer, 20 | 31), "{call:?} answers {answer}");
        match (answer, TABLE[call.row].name) {
            (0, "start") => moments.truncate(1),
            (0, "fire") => {
                let flows = model.flows.len();
                assert!((1..=flows + 1).contains(&store.rounds.get()));
                moments.push(held(store));
            }
            (0, "undo") => {
                moments.pop();
                undone += 1;
            }
            (0, "marks") => {
                let transitions = model.transitions.len();
                assert_eq!(store.buffer.cells(), &store.marks.cells()[..transitions]);
            }
            (0, "first_outside") => assert_eq!(store.found.get(), 0),
            _ => {}
        }
        assert_eq!(store.n.get(), moments.len() - 1);
        assert_eq!(held(store), moments[moments.len() - 1]);
    }
    undone
}

/// Damaged files are refused or run like any other; every refusal of a file is met.
#[test]
fn damaged_files() {
    let mut random = Random::new(4);
    let mut answers: BTreeMap<u8, usize> = BTreeMap::new();
    for _ in 0..6_000 {
        let shape = model_gen::shape(&mut random);
        let model = model_gen::model(&mut random, shape);
        let file = model_gen::damaged(&mut random, &model.encode());
        let mut store = model_gen::store(&mut random, &model);
        for call in model_gen::calls(&mut random, &model) {
            let before = store.clone();
            let answer = call.perform(&ENGINE, &file, &mut store);
            if answer != 0 {
                assert_eq!(store.differences(&before), [""; 0], "{call:?}");
            }
        }
        let answer = reference::check(&file).map_or_else(|refusal| refusal.number(), |_| 0);
        *answers.entry(answer).or_default() += 1;
    }
    println!("{answers:?}");
    let met: Vec<u8> = answers.keys().copied().collect();
    assert_eq!(met, [0, 1, 2, 3, 4, 5, 6, 7, 8, 37]);
}

/// Where the values that are lent to lists of calls are outside: each of these is met, and the lowest is found.
#[test]
fn values_outside() {
    let mut random = Random::new(5);
    let mut met: BTreeMap<&str, usize> = BTreeMap::new();
    for _ in 0..6_000 {
        let shape = model_gen::shape(&mut random);
        let model = model_gen::model(&mut random, shape);
        let file = model.encode();
        let store = model_gen::store(&mut random, &model);
        let values = store.values.cells();
        let found = reference::first_outside(&file, values).map_err(|refusal| refusal.number());
        for place in places_outside(&model, values, found) {
            *met.entry(place).or_default() += 1;
        }
        // With n = 0 and marks of 0 no other part of 20 can be the reason.
        let mut store = Store::new(values, &[0; 3_999], &[], 0, &[]);
        let call = Call {
            row: PICK,
            number: 0,
        };
        let answer = call.perform(&ENGINE, &file, &mut store);
        let outside = matches!(found, Ok((Some(_), _)));
        assert_eq!(answer == 20, outside);
    }
    println!("{met:?}");
    assert_eq!(met.len(), 10);
    assert!(met.values().all(|&times| times >= 20), "{met:?}");
}

/// What these values are examples of; what was found in them must be right.
fn places_outside(
    model: &Model,
    values: &[i32],
    found: Result<(Option<usize>, usize), u8>,
) -> Vec<&'static str> {
    let (states, variables) = (model.states.len(), model.variables().count());
    if values.len() < variables {
        assert_eq!(found, Err(9));
        let one_short = values.len() + 1 == variables;
        return vec![if one_short { "one short" } else { "shorter" }];
    }
    let outside = |&place: &usize| {
        let (low, high) = model.variables().nth(place).expect("a variable").ends();
        !(low..=high).contains(&values[place])
    };
    let outside: Vec<usize> = (0..variables).filter(outside).collect();
    let Some(&first) = outside.first() else {
        assert_eq!(found, Ok((None, variables)));
        let longer = values.len() > variables;
        return vec![if longer { "within, longer" } else { "within" }];
    };
    assert_eq!(found, Ok((Some(first), first + 1)));
    let places = [
        (first == 0, "the first"),
        (first == 1, "the second"),
        (first + 1 == states, "the last state"),
        (first == states, "the first flow"),
        (first >= states && first + 1 == variables, "the last flow"),
        (outside.len() > 1, "several"),
    ];
    let met = places.into_iter().filter(|&(met, _)| met);
    met.map(|(_, place)| place).collect()
}

/// What the marks and the buffer that are lent to lists of calls are like: each of these is met.
#[test]
fn marks_lent() {
    let mut random = Random::new(6);
    let mut met: BTreeMap<&str, usize> = BTreeMap::new();
    for _ in 0..6_000 {
        let shape = model_gen::shape(&mut random);
        let model = model_gen::model(&mut random, shape);
        let store = model_gen::store(&mut random, &model);
        for sort in sorts_of_marks(&model, &store) {
            *met.entry(sort).or_default() += 1;
        }
    }
    println!("{met:?}");
    assert_eq!(met.len(), 9);
    assert!(met.values().all(|&times| times >= 100), "{met:?}");
}

/// What these marks and this buffer are examples of.
fn sorts_of_marks(model: &Model, store: &Store) -> Vec<&'static str> {
    let (marks, buffer) = (store.marks.cells(), store.buffer.cells());
    let transitions = model.transitions.len();
    let (used, rest) = marks.split_at(transitions.min(marks.len()));
    let above = |marks: &[u8]| marks.iter().any(|&mark| mark > 2);
    let history = store.history.cells();
    let picked = reference::pick(
        &model.encode(),
        store.values.cells(),
        marks,
        history,
        store.n.get(),
    );
    let marked = used.iter().position(|&mark| mark == 1);
    let sorts = [
        (marks.len() + 1 == transitions, "marks one short"),
        (marks.len() == transitions, "marks"),
        (marks.len() == transitions + 3, "marks three longer"),
        (buffer.len() + 1 == transitions, "buffer one short"),
        (buffer.len() == transitions, "buffer"),
        (buffer.len() == transitions + 3, "buffer three longer"),
        (above(used), "one above 2"),
        (!above(used) && above(rest), "one above 2 from T on"),
        (picked.is_ok_and(|picked| picked != marked), "made up"),
    ];
    let met = sorts.into_iter().filter(|&(met, _)| met);
    met.map(|(_, sort)| sort).collect()
}
