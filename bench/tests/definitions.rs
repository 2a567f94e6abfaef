//! The scope document's examples and orders of refusal, the lowest pick of A1 and the first value outside of A3, by
//! hand.

use bench::calls::{Call, Store, FIRE, MARKS, PICK, UNDO, VALUE};
use bench::example;
use bench::program::gtsrun;
use bench::reference::{self, Refusal, ENGINE};
use bench::tree;

/// A file of these sizes S F E T and these nodes.
fn file(sizes: [u16; 4], nodes: &[(u8, i32)]) -> Vec<u8> {
    tree::encode(sizes, nodes)
}

fn check(sizes: [u16; 4], nodes: &[(u8, i32)]) -> u8 {
    reference::check(&file(sizes, nodes)).map_or_else(Refusal::number, |_| 0)
}

/// The first line that gtsrun prints.
fn start(sizes: [u16; 4], nodes: &[(u8, i32)]) -> String {
    gtsrun(&ENGINE, &file(sizes, nodes), b"")
}

fn run(sizes: [u16; 4], nodes: &[(u8, i32)], input: &str) -> String {
    gtsrun(&ENGINE, &file(sizes, nodes), input.as_bytes())
}

/// The example in full.
fn example() -> Vec<u8> {
    file(example::SIZES, &example::NODES)
}

#[test]
fn example_in_full() {
    let commands = "m\nf 1\nf 0\nf 2\nu\nu";
    let wanted = "ok 3 1 1 1\nm 1 0\nno 23\nok 2 0 1 0\nno 11\nback 1 1 1\nno 22\n";
    assert_eq!(gtsrun(&ENGINE, &example(), commands.as_bytes()), wanted);
    let ended = format!("{commands}\n");
    assert_eq!(gtsrun(&ENGINE, &example(), ended.as_bytes()), wanted);
}

/// What a flow of the widest ends becomes by this expression, or the refusal: one flow, reset 5.
fn flow(expression: &[(u8, i32)]) -> String {
    let mut nodes = vec![(2, i32::MIN), (3, i32::MAX), (4, 5), (17, 0)];
    nodes.extend(expression);
    start([0, 1, 0, 0], &nodes)
}

/// What a Boolean flow with reset 1 becomes; 34,1 is a further flow that stays unknown (reset 0).
fn boolean(expression: &[(u8, i32)]) -> String {
    let mut nodes = vec![(1, 1), (1, 0), (17, 0)];
    nodes.extend(expression);
    start([0, 2, 0, 0], &nodes)
}

const FAILED: [(u8, i32); 5] = [(38, 0), (44, 0), (32, 1), (32, 0), (32, 1)];
const UNKNOWN: [(u8, i32); 1] = [(34, 1)];

#[test]
fn rows_a_to_c() {
    let both = |operator, left: &[(u8, i32)], right: &[(u8, i32)]| {
        [
            boolean(&[&[(operator, 0)], left, right].concat()),
            boolean(&[&[(operator, 0)], right, left].concat()),
        ]
    };
    // (a) false and failed: false.
    assert_eq!(both(36, &[(33, 0)], &FAILED), ["ok 2 0 0\n", "ok 2 0 0\n"]);
    // (b) failed and unknown: unknown. It waits, and is false after the reset, while this flow's reset is true.
    assert_eq!(both(36, &FAILED, &UNKNOWN), ["no 30\n", "no 30\n"]);
    // (c) true or unknown: true.
    assert_eq!(both(37, &[(33, 1)], &UNKNOWN), ["ok 2 1 0\n", "ok 2 1 0\n"]);
    // Failed or unknown waits; after the reset it is failed.
    assert_eq!(both(37, &FAILED, &UNKNOWN), ["no 28\n", "no 28\n"]);
    // Unknown before failed everywhere: equal Booleans wait, then fail.
    assert_eq!(both(47, &FAILED, &UNKNOWN), ["no 28\n", "no 28\n"]);
    assert_eq!(both(36, &FAILED, &[(33, 1)]), ["no 28\n", "no 28\n"]);
}

#[test]
fn rows_d_to_g() {
    let operation = |kind, left, right| flow(&[(kind, 0), (32, left), (32, right)]);
    assert_eq!(operation(44, 7, -2), "ok 2 -3\n");
    assert_eq!(operation(45, 7, -2), "ok 2 1\n");
    assert_eq!(operation(44, -7, 2), "ok 2 -3\n");
    assert_eq!(operation(45, -7, 2), "ok 2 -1\n");
    assert_eq!(operation(44, i32::MIN, -1), "no 40\n");
    assert_eq!(operation(45, i32::MIN, -1), "ok 2 0\n");
    assert_eq!(operation(43, 46_340, 46_340), "ok 2 2147395600\n");
    assert_eq!(operation(43, 46_341, 46_341), "no 40\n");
    assert_eq!(operation(44, 1, 0), "no 28\n");
    assert_eq!(operation(45, 1, 0), "no 28\n");
    assert_eq!(operation(41, i32::MAX, 1), "no 40\n");
    assert_eq!(operation(42, i32::MIN, 1), "no 40\n");
    assert_eq!(operation(42, -1, i32::MAX), "ok 2 -2147483648\n");
}

/// Two states 1 and 2 within 0 to 5, one transition with this action.
fn action(action: &[(u8, i32)]) -> String {
    let mut nodes = vec![
        (2, 0),
        (3, 5),
        (4, 1),
        (2, 0),
        (3, 5),
        (4, 2),
        (5, 0),
        (33, 1),
    ];
    nodes.extend(action);
    nodes.push((16, 0));
    let output = run([2, 0, 1, 1], &nodes, "f 0");
    output.strip_prefix("ok 1 1 2\n").unwrap().to_string()
}

#[test]
fn rows_h_i_l() {
    assert_eq!(
        action(&[(19, 2), (17, 0), (34, 1), (17, 1), (34, 0)]),
        "ok 1 2 1\n"
    );
    assert_eq!(
        action(&[(19, 2), (17, 0), (32, 1), (17, 0), (32, 1)]),
        "ok 1 1 2\n"
    );
    assert_eq!(
        action(&[(19, 2), (17, 0), (32, 1), (17, 0), (32, 2)]),
        "no 27\n"
    );
    let fails = [(17, 0), (44, 0), (32, 1), (32, 0)];
    let outside = [(17, 1), (32, 9)];
    let conflict = [(19, 2), (17, 0), (32, 1), (17, 0), (32, 2)];
    let block = |parts: &[&[(u8, i32)]]| {
        action(&[&[(19, parts.len() as i32)], &parts.concat()[..]].concat())
    };
    assert_eq!(block(&[&fails, &outside]), "no 25\n");
    assert_eq!(block(&[&outside, &fails]), "no 25\n");
    assert_eq!(block(&[&conflict, &outside, &fails]), "no 25\n");
    assert_eq!(block(&[&conflict, &outside]), "no 26\n");
    // A condition that is not reached is not looked at; one that is reached counts, whatever stands below it.
    let condition = [(39, 0), (44, 0), (32, 1), (32, 0), (32, 1)];
    let hidden = [&[(18, 0), (33, 0), (18, 0)], &condition[..], &[(16, 0)]].concat();
    assert_eq!(action(&hidden), "ok 1 1 2\n");
    let reached = [&[(18, 0)], &condition[..], &[(19, 0)]].concat();
    assert_eq!(action(&reached), "no 25\n");
}

#[test]
fn rows_j_k() {
    let number = |reset| [(2, 0), (3, 1), (4, reset)];
    let pair = |one, two| {
        let flows = [number(one), number(two)].concat();
        let block = [(19, 2), (17, 0), (34, 1), (17, 1), (34, 0)];
        start([0, 2, 0, 0], &[&flows[..], &block].concat())
    };
    assert_eq!(pair(0, 0), "ok 1 0 0\n");
    assert_eq!(pair(0, 1), "no 30\n");
    assert_eq!(
        start([0, 1, 0, 0], &[(1, 0), (17, 0), (35, 0), (34, 0)]),
        "no 30\n"
    );
}

/// An unassigned flow is not fed into propagation: the reading after the reset finds the difference.
#[test]
fn resets_come_after_propagation() {
    let nodes = [(1, 0), (1, 0), (17, 0), (35, 0), (34, 1)];
    assert_eq!(start([0, 2, 0, 0], &nodes), "no 30\n");
    // An earlier round's 30 comes before a later round's 28.
    let nodes = [
        (1, 0),
        (1, 0),
        (19, 4),
        (17, 0),
        (33, 1),
        (17, 1),
        (33, 1),
        (17, 1),
        (33, 0),
        (18, 0),
        (34, 0),
        (17, 1),
        (38, 0),
        (44, 0),
        (32, 1),
        (32, 0),
        (32, 1),
    ];
    assert_eq!(start([0, 2, 0, 0], &nodes), "no 30\n");
}

#[test]
fn refusals_of_files() {
    let mut long = file([0, 0, 0, 0], &[(16, 0)]);
    long.push(0);
    assert_eq!(reference::check(&long), Err(Refusal::LengthDiffers));
    long.resize(60_000, 0);
    assert_eq!(reference::check(&long), Err(Refusal::LengthDiffers));
    assert_eq!(check([0, 0, 0, 0], &[]), 4);
    assert_eq!(check([0, 0, 7, 0], &[(16, 0)]), 0);
    assert_eq!(check([0, 0, 0, 0], &[(16, 0), (16, 0)]), 8);
    assert_eq!(check([0, 0, 0, 0], &[(16, 1)]), 7);
    assert_eq!(check([0, 0, 0, 0], &[(19, -1)]), 7);
    assert_eq!(check([0, 0, 0, 0], &[(19, i32::MAX), (16, 0)]), 4);
}

#[test]
fn refusals_of_nodes() {
    // Variables of three nodes.
    assert_eq!(check([1, 0, 0, 0], &[(2, 5), (3, 4)]), 7);
    assert_eq!(check([1, 0, 0, 0], &[(2, 5), (3, 5)]), 4);
    assert_eq!(check([1, 0, 0, 0], &[(2, 5), (4, 5)]), 6);
    assert_eq!(check([1, 0, 0, 0], &[(2, 5), (3, 5), (4, 6), (16, 0)]), 7);
    assert_eq!(check([1, 0, 0, 0], &[(3, 5), (16, 0)]), 6);
    assert_eq!(check([1, 0, 0, 0], &[(1, 2), (16, 0)]), 7);
    // Events, targets, types.
    assert_eq!(check([0, 0, 0, 1], &[(5, 0), (33, 1), (16, 0), (16, 0)]), 7);
    assert_eq!(
        check(
            [1, 0, 1, 1],
            &[(1, 0), (5, 0), (34, 0), (17, 0), (34, 0), (16, 0)]
        ),
        0
    );
    assert_eq!(check([1, 1, 0, 0], &[(1, 0), (1, 0), (17, 0), (99, 9)]), 7);
    assert_eq!(check([0, 1, 0, 0], &[(1, 0), (17, 0), (32, 1)]), 6);
    assert_eq!(check([0, 1, 0, 0], &[(1, 0), (17, 0), (41, 5)]), 6);
    assert_eq!(check([0, 1, 0, 0], &[(1, 0), (17, 0), (36, 5)]), 7);
    assert_eq!(
        check([0, 1, 0, 0], &[(2, 0), (3, 0), (4, 0), (17, 0), (36, 5)]),
        6
    );
    assert_eq!(
        check(
            [0, 2, 0, 0],
            &[(1, 0), (2, 0), (3, 0), (4, 0), (17, 0), (34, 1)]
        ),
        7
    );
}

#[test]
fn depth() {
    let blocks = |count, last: (u8, i32)| {
        let mut nodes = vec![(19, 1); count];
        nodes.push(last);
        nodes
    };
    assert_eq!(check([0, 0, 0, 0], &blocks(31, (16, 0))), 0);
    assert_eq!(check([0, 0, 0, 0], &blocks(31, (19, 0))), 0);
    assert_eq!(check([0, 0, 0, 0], &blocks(31, (19, 1))), 4);
    assert_eq!(check([0, 0, 0, 0], &blocks(32, (16, 0))), 5);
    assert_eq!(check([0, 0, 0, 0], &blocks(32, (250, 9))), 5);
}

#[test]
fn expressions_outside() {
    use reference::Type;
    let model = example();
    let expression = |kinds: &[u8], parameters: &[i32], wanted| {
        reference::check_expression(&model, kinds, parameters, wanted)
            .map_or_else(Refusal::number, |()| 0)
    };
    assert_eq!(expression(&[34], &[2], Type::Boolean), 0);
    assert_eq!(expression(&[34], &[2], Type::Number), 7);
    assert_eq!(expression(&[34], &[3], Type::Boolean), 7);
    assert_eq!(expression(&[34, 34], &[2], Type::Boolean), 3);
    assert_eq!(expression(&[], &[], Type::Boolean), 4);
    assert_eq!(expression(&[32, 32], &[2, 2], Type::Number), 8);
    assert_eq!(expression(&[16], &[0], Type::Boolean), 6);
    // More than 12,000 nodes are no reason to refuse: a full tree 14 deep.
    let mut kinds = vec![];
    fn full(kinds: &mut Vec<u8>, depth: usize) {
        kinds.push(if depth == 1 { 32 } else { 41 });
        for _ in 0..if depth == 1 { 0 } else { 2 } {
            full(kinds, depth - 1);
        }
    }
    full(&mut kinds, 14);
    assert!(kinds.len() > 12_000);
    let parameters = vec![0; kinds.len()];
    assert_eq!(expression(&kinds, &parameters, Type::Number), 0);
    kinds.push(32);
    assert_eq!(expression(&kinds, &parameters, Type::Number), 3);
}

#[test]
fn orders_of_refusal() {
    let model = example();
    let mut n = 0;
    // fire: 9, 11, 20, 21, 23; 10 is in held_marks.rs.
    let fire = |values: &mut [i32], history: &mut [u16], n: &mut usize, transition| {
        reference::fire(&model, values, &mut [0; 2], history, n, transition)
            .map_err(Refusal::number)
    };
    assert_eq!(fire(&mut [9, 9], &mut [], &mut 1, 9), Err(9));
    assert_eq!(fire(&mut [9, 9, 9], &mut [], &mut 1, 2), Err(11));
    assert_eq!(fire(&mut [9, 9, 9], &mut [], &mut 1, 1), Err(20));
    assert_eq!(fire(&mut [1, 1, 1], &mut [], &mut 1, 1), Err(20));
    assert_eq!(fire(&mut [1, 1, 1], &mut [2], &mut 1, 1), Err(20));
    assert_eq!(fire(&mut [1, 1, 1], &mut [1], &mut 1, 1), Err(21));
    assert_eq!(fire(&mut [1, 1, 1], &mut [], &mut 0, 1), Err(21));
    assert_eq!(fire(&mut [1, 1, 1], &mut [2], &mut 0, 1), Err(23));
    assert_eq!(fire(&mut [1, 1, 1], &mut [2], &mut 0, 256), Err(11));
    // undo: 20, 22, 31; entries from n on are not looked at.
    let undo = |values: &mut [i32], history: &[u16], n: &mut usize| {
        reference::undo(&model, values, &mut [0; 2], history, n).map_err(Refusal::number)
    };
    assert_eq!(undo(&mut [2, 1, 1], &[], &mut n), Err(20));
    assert_eq!(undo(&mut [1, 1, 1, 7], &[9], &mut n), Err(22));
    assert_eq!(undo(&mut [1, 1, 1], &[1, 1], &mut 2), Err(31));
    let mut values = [0, 0, 0, 7];
    n = 1;
    assert_eq!(undo(&mut values, &[1, 9], &mut n), Ok(()));
    assert_eq!((values, n), ([1, 1, 1, 7], 0));
    // marks: 10 before 20; value: 12 before 20.
    let marks = |values: &[i32], n, buffer: &mut [u8]| {
        reference::marks(&model, values, &[1, 0], &[], n, buffer).map_err(Refusal::number)
    };
    assert_eq!(marks(&[9, 9, 9], 1, &mut [7]), Err(10));
    assert_eq!(marks(&[1, 1, 1], 1, &mut [7, 7]), Err(20));
    let mut cells = [7, 7, 7];
    assert_eq!(marks(&[1, 1, 1], 0, &mut cells), Ok(()));
    assert_eq!(cells, [1, 0, 7]);
    let value = |n, variable| {
        reference::value(&model, &[1, 1, 0], &[1, 0], &[], n, variable).map_err(Refusal::number)
    };
    assert_eq!(value(1, 3), Err(12));
    assert_eq!(value(1, 2), Err(20));
    assert_eq!(value(0, 2), Ok(0));
    assert_eq!(
        reference::pick(&model, &[0, 0, 0], &[0, 1], &[], 0),
        Ok(Some(1))
    );
}

/// A model with one Boolean state and a transition for each guard.
fn guarded(guards: &[&[(u8, i32)]]) -> Vec<u8> {
    let mut nodes = vec![(1, 0)];
    for guard in guards {
        nodes.push((5, 0));
        nodes.extend(*guard);
        nodes.push((16, 0));
    }
    nodes.push((16, 0));
    file([1, 0, 1, guards.len() as u16], &nodes)
}

#[test]
fn pick_answers_the_lowest() {
    const NO: &[(u8, i32)] = &[(33, 0)];
    const YES: &[(u8, i32)] = &[(33, 1)];
    let pick = |guards: &[&[(u8, i32)]]| reference::pick(&guarded(guards), &[0], &[0; 255], &[], 0);
    // The lowest of several; a state of 0 is a guard that is false.
    assert_eq!(pick(&[YES, YES, YES]), Ok(Some(0)));
    assert_eq!(pick(&[&[(34, 0)], YES, YES]), Ok(Some(1)));
    assert_eq!(pick(&[vec![NO; 254], vec![YES]].concat()), Ok(Some(254)));
    // A failed guard below a true one.
    assert_eq!(pick(&[&FAILED, YES]), Ok(Some(1)));
    assert_eq!(pick(&[NO, &FAILED, NO, YES, YES]), Ok(Some(3)));
    // None.
    assert_eq!(pick(&[]), Ok(None));
    assert_eq!(pick(&[NO]), Ok(None));
    assert_eq!(pick(&[&FAILED, NO]), Ok(None));
}

#[test]
fn refusals_and_results_of_pick() {
    let file = guarded(&[&[(34, 0)], &[(34, 0)]]);
    let pick = |values: &[i32], history: &[u16], n| {
        let (mut transition, mut found) = (77, 9);
        let answer = (ENGINE.pick)(
            &file,
            values,
            &[0; 2],
            history,
            n,
            &mut transition,
            &mut found,
        );
        (answer, transition, found)
    };
    // 9, then 20: a value, an entry, n; entries from n on are not looked at. 10 is in held_marks.rs.
    assert_eq!(pick(&[], &[], 1), (9, 77, 9));
    assert_eq!(pick(&[2], &[], 0), (20, 77, 9));
    assert_eq!(pick(&[1], &[1, 2], 2), (20, 77, 9));
    assert_eq!(pick(&[1], &[1, 2], 3), (20, 77, 9));
    assert_eq!(pick(&[1], &[1, 2], 1), (0, 0, 1));
    // None: the transition's cell stays.
    assert_eq!(pick(&[0, 5], &[], 0), (0, 77, 0));
}

const BOOLEAN: &[(u8, i32)] = &[(1, 0)];
/// A number from -3 to 5.
const NUMBER: &[(u8, i32)] = &[(2, -3), (3, 5), (4, 0)];

/// A model of these states and flows.
fn variables(states: &[&[(u8, i32)]], flows: &[&[(u8, i32)]]) -> Vec<u8> {
    let nodes = [&states.concat()[..], &flows.concat(), &[(16, 0)]].concat();
    file([states.len() as u16, flows.len() as u16, 0, 0], &nodes)
}

#[test]
fn first_outside_is_the_lowest() {
    let file = variables(&[BOOLEAN, NUMBER], &[NUMBER, BOOLEAN]);
    let first = |values: [i32; 4]| reference::first_outside(&file, &values);
    // At the ends.
    assert_eq!(first([0, -3, 5, 1]), Ok((None, 4)));
    assert_eq!(first([1, 5, -3, 0]), Ok((None, 4)));
    // The first state, the last one, the first flow, the last one; above and below.
    assert_eq!(first([2, 0, 0, 0]), Ok((Some(0), 1)));
    assert_eq!(first([-1, 0, 0, 0]), Ok((Some(0), 1)));
    assert_eq!(first([0, 6, 0, 0]), Ok((Some(1), 2)));
    assert_eq!(first([0, -4, 0, 0]), Ok((Some(1), 2)));
    assert_eq!(first([0, 0, i32::MAX, 0]), Ok((Some(2), 3)));
    assert_eq!(first([0, 0, i32::MIN, 0]), Ok((Some(2), 3)));
    assert_eq!(first([0, 0, 0, 2]), Ok((Some(3), 4)));
    assert_eq!(first([0, 0, 0, -1]), Ok((Some(3), 4)));
    // Of several the lowest.
    assert_eq!(first([9, 9, 9, 9]), Ok((Some(0), 1)));
    assert_eq!(first([1, 9, 0, 9]), Ok((Some(1), 2)));
    assert_eq!(first([1, 5, 6, 2]), Ok((Some(2), 3)));
}

#[test]
fn first_outside_of_none_and_of_many() {
    let none = variables(&[], &[]);
    assert_eq!(reference::first_outside(&none, &[]), Ok((None, 0)));
    assert_eq!(reference::first_outside(&none, &[9]), Ok((None, 0)));
    let many = variables(&[BOOLEAN; 255], &[NUMBER; 255]);
    let first = |wrong: &[usize]| {
        let mut values = [1; 510];
        wrong.iter().for_each(|&place| values[place] = 6);
        reference::first_outside(&many, &values)
    };
    assert_eq!(first(&[]), Ok((None, 510)));
    assert_eq!(first(&[1]), Ok((Some(1), 2)));
    assert_eq!(first(&[1, 2, 254, 509]), Ok((Some(1), 2)));
    assert_eq!(first(&[255, 256]), Ok((Some(255), 256)));
    assert_eq!(first(&[509]), Ok((Some(509), 510)));
}

#[test]
fn refusals_and_results_of_first_outside() {
    let file = variables(&[BOOLEAN], &[NUMBER]);
    let first = |file: &[u8], values: &[i32]| {
        let (mut variable, mut found, mut looked) = (77, 9, 88);
        let answer = (ENGINE.first_outside)(file, values, &mut variable, &mut found, &mut looked);
        (answer, variable, found, looked)
    };
    // The model's refusal, then 9: a value outside does not come before it.
    assert_eq!(first(&file[..9], &[]), (1, 77, 9, 88));
    assert_eq!(first(&file[..10], &[2]), (3, 77, 9, 88));
    assert_eq!(
        first(&variables(&[BOOLEAN, &[(99, 0)]], &[]), &[2]),
        (6, 77, 9, 88)
    );
    assert_eq!(first(&file, &[]), (9, 77, 9, 88));
    assert_eq!(first(&file, &[2]), (9, 77, 9, 88));
    assert_eq!(first(&file, &[0, 6]), (0, 1, 1, 2));
    // None: the variable's cell stays. Cells after the last variable's are not looked at.
    assert_eq!(first(&file, &[0, 5]), (0, 77, 0, 2));
    assert_eq!(first(&file, &[0, 5, 6, i32::MIN]), (0, 77, 0, 2));
}

/// With n, history and marks right, the calls on a run answer 20 exactly where there is a value outside.
#[test]
fn first_outside_and_20() {
    const NUMBERS: [i32; 4] = [-1, 0, 1, 2];
    let model = example();
    for place in 0..64 {
        let values = [place / 16, place / 4 % 4, place % 4].map(|number| NUMBERS[number]);
        let (outside, _) = reference::first_outside(&model, &values).expect("accepted");
        for row in [FIRE, UNDO, MARKS, VALUE, PICK] {
            let call = Call { row, number: 0 };
            let mut store = Store::new(&values, &[0; 2], &[0, 9], 1, &[7; 2]);
            let answer = call.perform(&ENGINE, &model, &mut store);
            let name = call.name();
            assert_eq!(answer == 20, outside.is_some(), "{name}, {values:?}");
        }
    }
}

#[test]
fn program_lines() {
    let lines = |input: &str| gtsrun(&ENGINE, &example(), input.as_bytes());
    let after_start = |input: &str| {
        lines(input)
            .strip_prefix("ok 3 1 1 1\n")
            .unwrap()
            .to_string()
    };
    assert_eq!(lines(""), "ok 3 1 1 1\n");
    assert_eq!(after_start("\n"), "no 13\n");
    assert_eq!(after_start("f 000"), "ok 2 0 1 0\n");
    assert_eq!(after_start("f 0\nu\n"), "ok 2 0 1 0\nback 1 1 1\n");
    for refused in [
        "f", "f ", "f  0", "f 0 ", " f 0", "f 000000", "f +1", "m\r", "u\0", "F 0", "mm", "f 0a",
    ] {
        assert_eq!(after_start(refused), "no 13\n", "{refused:?}");
    }
    assert_eq!(after_start("f 256\nf 65536\n"), "no 11\nno 11\n");
    let long = "f".repeat(200_000);
    assert_eq!(after_start(&format!("{long}\nm")), "no 13\nm 1 0\n");
    assert_eq!(after_start(&"\n".repeat(70_000)), "no 13\n".repeat(70_000));
    assert_eq!(gtsrun(&ENGINE, b"", b"m\n"), "no 1\n");
    // 200 places.
    let full = after_start(&"f 0\nf 1\n".repeat(101));
    assert_eq!(full.matches("ok").count(), 200);
    assert!(full.ends_with("no 21\nno 21\n"));
    assert_eq!(run([0, 0, 0, 0], &[(16, 0)], "m\nu"), "ok 1\nm\nno 22\n");
}
