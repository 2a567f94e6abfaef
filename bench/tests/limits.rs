//! The limits of a file, A7, by hand: headers, the largest models, history entries of two bytes, `f` with up to 5 digits.

use bench::calls::{Arguments, Call, Store, FIRE, MARKS, PICK, START, UNDO, VALUE};
use bench::limits;
use bench::program::gtsrun;
use bench::random::Random;
use bench::reference::{self, Refusal, ENGINE};
use bench::tree::{Expr, Instr, Model, Operator, Transition, Variable};
use bench::workloads;

/// The sizes S F E T N, and after them so many bytes that the length is this.
fn header(sizes: [u16; 5], length: usize) -> Vec<u8> {
    let mut file: Vec<u8> = sizes.into_iter().flat_map(u16::to_le_bytes).collect();
    file.resize(length, 0);
    file
}

fn check(file: &[u8]) -> u8 {
    reference::check(file).map_or_else(Refusal::number, |_| 0)
}

/// What the check answers to a header of these sizes, with the length that fits N, with the header alone, and with a byte
/// more than fits.
fn checks(sizes: [u16; 5]) -> [u8; 3] {
    let fitting = 10 + 5 * usize::from(sizes[4]);
    [fitting, 10, fitting + 1].map(|length| check(&header(sizes, length)))
}

#[test]
fn lengths_of_headers() {
    for length in 0..10 {
        assert_eq!(check(&vec![255; length]), 1, "{length} bytes");
    }
    assert_eq!(check(&[255; 10]), 2);
    assert_eq!(check(&[0; 10]), 4);
    assert_eq!(check(&[0; 11]), 3);
}

#[test]
fn nodes() {
    assert_eq!(checks([0, 0, 0, 0, 12_000]), [6, 3, 3]);
    assert_eq!(checks([0, 0, 0, 0, 12_001]), [2; 3]);
    assert_eq!(checks([0, 0, 0, 0, 65_535]), [2; 3]);
    // Of the low byte first: 1 is no 256.
    assert_eq!(check(&[0, 0, 0, 0, 0, 0, 0, 0, 1, 0, 16, 0, 0, 0, 0]), 0);
    assert_eq!(check(&[0, 0, 0, 0, 0, 0, 0, 0, 0, 1, 16, 0, 0, 0, 0]), 3);
}

/// 37 is tried after 2 and before 3.
#[test]
fn variables() {
    for (states, flows) in [
        (4_001, 0),
        (0, 4_001),
        (4_000, 1),
        (2_001, 2_000),
        (65_535, 0),
        (0, 65_535),
        (65_535, 65_535),
        // 16 bits of these sums are 0, 1 and 4,000.
        (65_535, 1),
        (1, 65_535),
        (32_768, 32_769),
        (65_535, 4_001),
    ] {
        assert_eq!(checks([states, flows, 0, 0, 1]), [37; 3]);
        assert_eq!(checks([states, flows, 65_535, 65_535, 12_000]), [37; 3]);
        assert_eq!(checks([states, flows, 0, 0, 12_001]), [2; 3]);
        assert_eq!(check(&header([states, flows, 0, 0, 0], 10)), 37);
        assert_eq!(check(&header([states, flows, 0, 0, 0], 9)), 1);
    }
    for (states, flows) in [(4_000, 0), (0, 4_000), (2_000, 2_000), (1, 3_999)] {
        assert_eq!(checks([states, flows, 0, 0, 1]), [6, 3, 3]);
        assert_eq!(check(&header([states, flows, 0, 0, 0], 10)), 4);
    }
}

/// T up to 65,535 is no refusal of its own: the walk ends at the first transition that is missing.
#[test]
fn transitions() {
    assert_eq!(check(&header([0, 0, 65_535, 65_535, 0], 10)), 4);
    assert_eq!(checks([0, 0, 65_535, 65_535, 1]), [6, 3, 3]);
    let mut model = limits::transitions(3_999);
    let sizes = reference::check(&model.encode()).expect("accepted");
    assert_eq!(sizes.to_array(), [0, 0, 3_999, 3_999, 11_998]);
    let mut file = model.encode();
    for transitions in [4_000, 65_535_u16] {
        file[6..8].copy_from_slice(&transitions.to_le_bytes());
        assert_eq!(check(&file), 6);
    }
    // E at its largest, and an event that 16 bits of a parameter would let through.
    model.events = 65_535;
    assert_eq!(check(&model.encode()), 0);
    let parameter = |file: &mut Vec<u8>, event: i32| {
        file[10 + 11_998..][..4].copy_from_slice(&event.to_le_bytes());
    };
    let mut file = model.encode();
    for (event, wanted) in [(65_534, 0), (65_535, 7), (65_536, 7), (-1, 7)] {
        parameter(&mut file, event);
        assert_eq!(check(&file), wanted, "event {event}");
    }
}

/// Every model at a limit is accepted, and its list of calls gives the same with a shuffled one.
#[test]
fn models_at_limits() {
    let mut random = Random::new(21);
    for case in limits::all() {
        let (file, twin) = (
            case.model.encode(),
            case.model.shuffled(&mut random).encode(),
        );
        let [mut one, mut two] = [case.store.clone(), case.store.clone()];
        for call in &case.calls {
            let answer = call.perform(&ENGINE, &file, &mut one);
            let name = format!("{}, {call:?}", case.name);
            assert_eq!(call.perform(&ENGINE, &twin, &mut two), answer, "{name}");
            assert_eq!(one.differences(&two), [""; 0], "{name}");
            assert!(call.row != START || answer == 0, "{name}");
            assert!(one.intact(), "{name}");
        }
    }
}

/// What the joins in the model of this name answer, and how many transitions they leave.
fn joins(name: &str) -> [(u8, usize); 2] {
    let case = limits::all().into_iter().find(|case| case.name == name);
    let case = case.expect("a model at a limit");
    case.joins().map(|mut join| {
        let answer = join.perform(&ENGINE, &case.model.encode());
        let new = reference::check(join.written());
        (answer, new.map_or(0, |sizes| sizes.transitions))
    })
}

/// A join adds four nodes, or seven; each model is full but for what it has room for.
#[test]
fn joins_at_limits() {
    assert_eq!(joins("3,999 transitions"), [(36, 0); 2]);
    assert_eq!(joins("room for one transition"), [(0, 3_999), (36, 0)]);
    assert_eq!(joins("4,000 variables"), [(0, 3); 2]);
    assert_eq!(joins("4,000 rounds"), [(11, 0); 2]);
    assert_eq!(joins("12,000 nodes"), [(36, 0); 2]);
    assert_eq!(joins("65,535 events"), [(36, 0); 2]);
}

/// The last variable is the one node of a text, the number after it is 12.
#[test]
fn texts_at_limits() {
    for case in limits::all() {
        let variables = case.model.variables().count();
        let [last, none] = case.texts().map(|mut typed| {
            let answer = typed.perform(&ENGINE, &case.model.encode());
            (answer, typed.count.get(), typed.parameters.cells()[0])
        });
        assert_eq!(none, (12, 9, 7), "{}", case.name);
        if variables > 0 {
            assert_eq!(last, (0, 1, variables as i32 - 1), "{}", case.name);
        }
    }
}

/// What the calls on both logs of the model of this name answer, and the figures of their last rows.
fn logs(name: &str) -> [(u8, [i32; 3]); 2] {
    let case = limits::all().into_iter().find(|case| case.name == name);
    let case = case.expect("a model at a limit");
    case.logs().map(|mut log| {
        let answer = log.perform(&ENGINE, &case.model.encode());
        let figures = log.figures.cells();
        (answer, [figures[6], figures[7], figures[8]])
    })
}

/// The last value of the last row is 1 or 2, and no Boolean is 2. Of a model without variables both expressions are refused (7): v0 is
/// not there.
#[test]
fn logs_at_limits() {
    let refused = |number| (number, [7; 3]);
    assert_eq!(logs("4,000 variables"), [(0, [1, 2, 1]), refused(20)]);
    assert_eq!(logs("widest values"), [(0, [2, 2, 1]), refused(20)]);
    assert_eq!(logs("12,000 nodes"), [(0, [0, 1, 1]), (0, [1, 2, 1])]);
    assert_eq!(logs("3,999 transitions"), [refused(7); 2]);
}

/// What first_outside, marks, value, pick, fire and undo answer where only the last value, mark or entry is wrong, or none.
#[test]
fn last_cells() {
    let answers: Vec<(&str, Vec<u8>)> = limits::all()
        .into_iter()
        .filter(|case| ["last value", "last mark", "history entry"].contains(&case.name))
        .map(|case| {
            let (file, mut store) = (case.model.encode(), case.store);
            let perform = |call: Call| call.perform(&ENGINE, &file, &mut store);
            (case.name, case.calls.into_iter().map(perform).collect())
        })
        .collect();
    let wanted = [
        ("last value", vec![0, 20, 20, 20, 20, 20]),
        ("last mark", vec![0, 20, 12, 20, 20, 20]),
        ("last mark", vec![0, 0, 12, 0, 23, 0]),
        ("history entry", vec![0, 20, 12, 20, 20, 20]),
        ("history entry", vec![0, 0, 12, 0, 23, 0]),
    ];
    assert_eq!(answers, wanted);
}

fn call(row: usize, number: usize) -> Call {
    Call { row, number }
}

/// Marks, pick and a fire of the last of 3,999 transitions.
#[test]
fn last_transition() {
    let file = limits::transitions(3_999).encode();
    let mut store = Store::new(&[], &[9; 4_000], &[9; 2], 9, &[9; 4_000]);
    let mut perform = |row, number| call(row, number).perform(&ENGINE, &file, &mut store);
    assert_eq!(perform(START, 0), 0);
    assert_eq!(perform(MARKS, 0), 0);
    assert_eq!(perform(PICK, 0), 0);
    assert_eq!(perform(FIRE, 3_998), 0);
    assert_eq!(perform(FIRE, 3_998 % 256), 23);
    assert_eq!(perform(FIRE, 3_998 + 65_536), 11);
    assert_eq!(store.transition.get(), 3_998);
    assert_eq!((store.history.cells(), store.n.get()), (&[3_998, 9][..], 1));
    let marks = [vec![0; 3_998], vec![1, 9]].concat();
    assert_eq!(store.marks.cells(), marks);
    assert_eq!(store.buffer.cells(), marks);
    let output = gtsrun(&ENGINE, &file, b"m\nf 03998\nf 3999\nu\nf 3997\n");
    let marks = format!("m{} 1", " 0".repeat(3_998));
    assert_eq!(output, format!("ok 1\n{marks}\nok 1\nno 11\nback\nno 23\n"));
}

/// A number from 0 to 999 and a transition for each of 300 values, fireable at that value, which raises it.
fn stairs() -> Vec<u8> {
    let x = || Expr::Variable(0);
    let at = |value| Expr::binary(Operator::EqualNumbers, x(), Expr::Number(value));
    let raise = Expr::binary(Operator::Plus, x(), Expr::Number(1));
    Model {
        states: vec![Variable::Number {
            low: 0,
            high: 999,
            first: 0,
        }],
        flows: Vec::new(),
        events: 1,
        transitions: (0..300)
            .map(|value| Transition {
                event: 0,
                guard: at(value),
                action: Instr::Assign(0, raise.clone()),
            })
            .collect(),
        assertion: Instr::Skip,
    }
    .encode()
}

/// Entries above 255 are recorded and fired again; 16 bits of an entry count.
#[test]
fn entries_of_two_bytes() {
    let file = stairs();
    let mut store = Store::new(&[9], &[9; 300], &[65_535; 300], 9, &[]);
    assert_eq!(call(START, 0).perform(&ENGINE, &file, &mut store), 0);
    for place in 0..300 {
        let answer = call(FIRE, place).perform(&ENGINE, &file, &mut store);
        assert_eq!((answer, store.n.get()), (0, place + 1));
    }
    let wanted: Vec<u16> = (0..300).collect();
    assert_eq!(store.history.cells(), wanted);
    for place in (0..300).rev() {
        assert_eq!(call(UNDO, 0).perform(&ENGINE, &file, &mut store), 0);
        assert_eq!(store.values.cells(), [place]);
    }
    assert_eq!(store.history.cells(), wanted);
}

/// An entry of T or above among the first n is 20, though its low byte be a transition.
#[test]
fn entries_that_no_transition_has() {
    let file = stairs();
    for (entry, wanted) in [(299, 0), (300, 20), (512, 20), (65_535, 20), (65_280, 20)] {
        let lent = Store::new(&[0], &[0; 300], &[0, entry, 65_535], 2, &[0; 300]);
        for row in [MARKS, VALUE, PICK] {
            let mut store = lent.clone();
            let answer = call(row, 0).perform(&ENGINE, &file, &mut store);
            assert_eq!(answer, wanted, "entry {entry}");
        }
        // Undo fires the first entry alone.
        let mut store = lent.clone();
        assert_eq!(call(UNDO, 0).perform(&ENGINE, &file, &mut store), wanted);
    }
}

/// `f` with 0 to 6 digits; 200 places.
#[test]
fn digits() {
    let file = stairs();
    let after_start = |input: &str| {
        let output = gtsrun(&ENGINE, &file, input.as_bytes());
        output
            .strip_prefix("ok 1 0\n")
            .expect("a start")
            .to_string()
    };
    for (line, wanted) in [
        ("f ", "no 13\n"),
        ("f 0", "ok 1 1\n"),
        ("f 00", "ok 1 1\n"),
        ("f 000", "ok 1 1\n"),
        ("f 0000", "ok 1 1\n"),
        ("f 00000", "ok 1 1\n"),
        ("f 000000", "no 13\n"),
        ("f 00007", "no 23\n"),
        ("f 1000", "no 11\n"),
        ("f 65536", "no 11\n"),
        ("f 99999", "no 11\n"),
        ("f 100000", "no 13\n"),
        ("f 00000 ", "no 13\n"),
        ("f +0000", "no 13\n"),
        ("f 0000a", "no 13\n"),
    ] {
        assert_eq!(after_start(line), wanted, "{line:?}");
    }
    let fires: String = (0..201).map(|place| format!("f {place:05}\n")).collect();
    let output = after_start(&fires);
    assert_eq!(output.matches("ok").count(), 200);
    assert!(output.ends_with("ok 1 200\nno 21\n"));
    assert!(
        after_start(&format!("{fires}u\nu\nf 00198\n")).ends_with("back 199\nback 198\nok 1 199\n")
    );
}

/// 4,000 variables in one line.
#[test]
fn widest_line() {
    let model = limits::widest_values();
    assert_eq!(model.nodes().len(), 11_999);
    let line = format!("ok 1{} 1\n", " -2147483648".repeat(3_999));
    assert_eq!(gtsrun(&ENGINE, &model.encode(), b""), line);
    let output = gtsrun(&ENGINE, &limits::most_variables().encode(), b"f 0\nu\n");
    let line = |last: &str| format!("{}{last}", " 0".repeat(1_999)).repeat(2);
    let wanted = [line(" 0"), line(" 1"), line(" 0")];
    assert_eq!(
        output,
        format!("ok 2{}\nok 2{}\nback{}\n", wanted[0], wanted[1], wanted[2])
    );
}

#[test]
fn longest_chain() {
    let output = gtsrun(&ENGINE, &workloads::flows_alone(3_999, 0).encode(), b"f 0");
    assert_eq!(output, format!("ok 4000{}\nno 11\n", " 1".repeat(3_999)));
}
