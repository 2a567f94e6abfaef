//! Events that happen together, A5, by hand: what a join writes, and at which edge it is refused.

use bench::calls::{Arguments, Call, Join, Store, FIRE, MARKS, PICK, START, UNDO};
use bench::reference::{self, ENGINE};
use bench::tree::{self, Expr, Instr, Model, Node, Operator, Transition, Variable};

/// Bytes of the largest model.
const MAX_BYTES: usize = 60_010;

/// Cells of a slice that is longer than any model, so that it is never the reason of a refusal.
const CELLS: usize = 70_000;

fn number(value: i32) -> Expr {
    Expr::Number(value)
}

fn always() -> Expr {
    Expr::Boolean(true)
}

fn transition(event: u16, guard: Expr, action: Instr) -> Transition {
    Transition {
        event,
        guard,
        action,
    }
}

/// A Boolean b, a number x from 0 to 5 and a flow that is x. The transitions: b, which clears it; x below 3, which raises
/// it; not b, which sets x to 5; 6 div x = 3, which sets x to 0; true, which sets b.
fn shop() -> Model {
    let (b, x) = (Expr::Variable(0), Expr::Variable(1));
    let set_x = |value| Instr::Assign(1, value);
    let quotient = Expr::binary(Operator::Div, number(6), x.clone());
    let range = Variable::Number {
        low: 0,
        high: 5,
        first: 2,
    };
    Model {
        states: vec![Variable::Boolean { first: true }, range],
        flows: vec![range],
        events: 4,
        transitions: vec![
            transition(0, b.clone(), Instr::Assign(0, Expr::Boolean(false))),
            transition(
                1,
                Expr::binary(Operator::Less, x.clone(), number(3)),
                set_x(Expr::binary(Operator::Plus, x.clone(), number(1))),
            ),
            transition(2, b.negated(), set_x(number(5))),
            transition(
                3,
                Expr::binary(Operator::EqualNumbers, quotient, number(3)),
                set_x(number(0)),
            ),
            transition(0, always(), Instr::Assign(0, always())),
        ],
        assertion: Instr::Assign(2, x),
    }
}

/// The nodes of the guards and of the actions of the shop's transitions.
const GUARDS: [&[Node]; 5] = [
    &[(34, 0)],
    &[(39, 0), (34, 1), (32, 3)],
    &[(35, 0), (34, 0)],
    &[(38, 0), (44, 0), (32, 6), (34, 1), (32, 3)],
    &[(33, 1)],
];
const ACTIONS: [&[Node]; 5] = [
    &[(17, 0), (33, 0)],
    &[(17, 1), (41, 0), (34, 1), (32, 1)],
    &[(17, 1), (32, 5)],
    &[(17, 1), (32, 0)],
    &[(17, 0), (33, 1)],
];

/// The file that a join gives, or its refusal; its slice holds 77 in every cell, and still does from the new length on.
fn join(file: &[u8], mandatory: &[usize], optional: &[usize], cells: usize) -> Result<Vec<u8>, u8> {
    let before = Join::new(mandatory, optional, &vec![77; cells], 9_999);
    let mut join = before.clone();
    let answer = join.perform(&ENGINE, file);
    assert!(join.intact());
    if answer != 0 {
        assert_eq!(join.differences(&before), [""; 0], "answers {answer}");
        return Err(answer);
    }
    let length = join.length.get();
    assert!(join.out.cells()[length..].iter().all(|&cell| cell == 77));
    Ok(join.written().to_vec())
}

/// The answer: 0 or the number of the refusal.
fn answer(model: &Model, mandatory: &[usize], optional: &[usize]) -> u8 {
    join(&model.encode(), mandatory, optional, CELLS).map_or_else(|number| number, |_| 0)
}

/// The shop with a transition of these nodes before its assertion, under event 4.
fn shop_with(nodes: &[&[Node]]) -> Vec<u8> {
    let mut all = shop().nodes();
    let assertion = all.split_off(all.len() - 2);
    all.push((5, 4));
    for part in nodes {
        all.extend_from_slice(part);
    }
    all.extend(assertion);
    tree::encode([2, 1, 5, 6], &all)
}

#[test]
fn mandatory_members() {
    let file = shop().encode();
    let [g0, g1, g2, g3, _] = GUARDS;
    let [a0, a1, a2, a3, _] = ACTIONS;
    // One guard stands alone, and the action is a block of one branch.
    let one = shop_with(&[g0, &[(19, 1)], a0]);
    assert_eq!(join(&file, &[0], &[], CELLS), Ok(one));
    let two = shop_with(&[&[(36, 0)], g3, g1, &[(19, 2)], a3, a1]);
    assert_eq!(join(&file, &[3, 1], &[], CELLS), Ok(two));
    // Nested to the right, in the order of the list.
    let guard: [&[Node]; 7] = [&[(36, 0)], g2, &[(36, 0)], g0, &[(36, 0)], g2, g1];
    let action: [&[Node]; 5] = [&[(19, 4)], a2, a0, a2, a1];
    let four = shop_with(&[&guard[..], &action[..]].concat());
    assert_eq!(join(&file, &[2, 0, 2, 1], &[], CELLS), Ok(four));
}

#[test]
fn optional_members() {
    let file = shop().encode();
    let [g0, g1, _, g3, _] = GUARDS;
    let [a0, a1, _, a3, _] = ACTIONS;
    // A single one has its own guard, not `true`.
    let one = shop_with(&[g1, &[(19, 1), (18, 0)], g1, a1]);
    assert_eq!(join(&file, &[], &[1], CELLS), Ok(one));
    let guard: [&[Node]; 5] = [&[(37, 0)], g1, &[(37, 0)], g3, g0];
    let if_then: &[Node] = &[(18, 0)];
    let action: [&[Node]; 10] = [
        &[(19, 3)],
        if_then,
        g1,
        a1,
        if_then,
        g3,
        a3,
        if_then,
        g0,
        a0,
    ];
    let three = shop_with(&[&guard[..], &action[..]].concat());
    assert_eq!(join(&file, &[], &[1, 3, 0], CELLS), Ok(three));
}

/// The optional guards are in no guard, and a member may stand in both lists.
#[test]
fn members_of_both_lists() {
    let file = shop().encode();
    let [g0, g1, ..] = GUARDS;
    let [a0, a1, .., a4] = ACTIONS;
    let g4 = GUARDS[4];
    let if_then: &[Node] = &[(18, 0)];
    let parts: [&[Node]; 12] = [
        &[(36, 0)],
        g1,
        g0,
        &[(19, 4)],
        a1,
        a0,
        if_then,
        g4,
        a4,
        if_then,
        g1,
        a1,
    ];
    let both = shop_with(&parts);
    assert_eq!(join(&file, &[1, 0], &[4, 1], CELLS), Ok(both));
}

/// Old transitions and their events, the variables and the assertion stay where they were.
#[test]
fn everything_else_stays() {
    let model = shop();
    let written = join(&model.encode(), &[0], &[1], CELLS).expect("accepted");
    let sizes = reference::check(&written).expect("accepted").to_array();
    let (old, new) = (model.nodes(), tree::decode(&written).expect("a file").1);
    assert_eq!(sizes, [2, 1, 5, 6, new.len() as u32]);
    let place = old.len() - 2;
    assert_eq!(new[..place], old[..place]);
    assert_eq!(new[place], (5, 4));
    assert_eq!(new[new.len() - 2..], old[place..]);
}

/// Lists of 0, 1, 2, 31, 32 and 33 members of each kind: 33 guards are too deep where they are joined.
#[test]
fn lengths_of_lists() {
    let model = shop();
    for mandatory in [0, 1, 2, 31, 32, 33] {
        for optional in [0, 1, 2, 31, 32, 33, 60] {
            let wanted = match (mandatory, optional) {
                (0, 0) => 35,
                (33, _) | (0, 33..) => 36,
                _ => 0,
            };
            let lists = [vec![0; mandatory], vec![4; optional]];
            let found = answer(&model, &lists[0], &lists[1]);
            assert_eq!(found, wanted, "{mandatory} mandatory, {optional} optional");
        }
    }
}

/// A guard two deep may stand at every place of 31, and at the first 30 of 32.
#[test]
fn places_of_a_deeper_guard() {
    let model = shop();
    for count in [31, 32] {
        for place in 0..count {
            let mut members = vec![0; count];
            members[place] = 2;
            let wanted = if count == 32 && place >= 30 { 36 } else { 0 };
            assert_eq!(answer(&model, &members, &[]), wanted, "{place} of {count}");
            assert_eq!(answer(&model, &[], &members), wanted, "{place} of {count}");
            assert_eq!(answer(&model, &[0], &members), 0, "{place} of {count}");
        }
    }
}

/// E up to 65,535, and T around 255 and up to 3,990: 36 for E alone, since the nodes end before T does.
#[test]
fn sizes() {
    let idle = |event| transition(event, always(), Instr::Skip);
    for events in [254, 255, 256, 65_534, 65_535] {
        for transitions in [1, 254, 255, 256, 3_990] {
            let model = Model {
                events,
                transitions: vec![idle(events - 1); transitions],
                ..shop()
            };
            let wanted = if events == 65_535 { 36 } else { 0 };
            for (mandatory, optional) in [(&[0][..], &[][..]), (&[], &[0]), (&[0], &[0])] {
                assert_eq!(answer(&model, mandatory, optional), wanted);
            }
            assert_eq!(answer(&model, &[], &[]), 35);
            assert_eq!(answer(&model, &[transitions], &[]), 11);
            if wanted == 0 {
                let last = [transitions - 1];
                let written = join(&model.encode(), &last, &[], CELLS).expect("accepted");
                let sizes = reference::check(&written).expect("accepted");
                let found = (sizes.events, sizes.transitions);
                assert_eq!(found, (usize::from(events) + 1, transitions + 1));
            }
        }
    }
}

/// An old file is refused by the new check.
#[test]
fn old_files() {
    let old = shop().encode_old().expect("an old file");
    let answer = reference::check(&old).expect_err("refused").number();
    assert_eq!(join(&old, &[0], &[], CELLS), Err(answer));
}

/// The shop with branches of one node, so that it has so many nodes.
fn filled(nodes: usize) -> Model {
    let mut model = shop();
    let more = nodes - model.nodes().len() - 1;
    let mut branches = vec![Instr::Skip; more];
    branches.push(model.assertion);
    model.assertion = Instr::Block(branches);
    assert_eq!(model.nodes().len(), nodes);
    model
}

/// How many nodes the new transition has: itself and its block; the guards that are joined, with an operator between
/// any two; the mandatory actions; for each optional member an if-then, its guard and its action.
fn new_nodes(mandatory: &[usize], optional: &[usize]) -> usize {
    let sum = |nodes: &[&[Node]; 5], members: &[usize]| -> usize {
        members.iter().map(|&member| nodes[member].len()).sum()
    };
    let joined = if mandatory.is_empty() {
        optional
    } else {
        mandatory
    };
    let guard = sum(&GUARDS, joined) + joined.len() - 1;
    let conditional = optional.len() + sum(&GUARDS, optional) + sum(&ACTIONS, optional);
    2 + guard + sum(&ACTIONS, mandatory) + conditional
}

/// New models of 12,000 and 12,001 nodes, and of so many as an old file had.
#[test]
fn nodes() {
    for (mandatory, optional) in [
        (&[0][..], &[][..]),
        (&[3, 1], &[]),
        (&[], &[0]),
        (&[], &[3, 3, 1]),
        (&[1, 2], &[3, 0]),
    ] {
        let more = new_nodes(mandatory, optional);
        for (nodes, wanted) in [(4_001, 0), (11_999, 0), (12_000, 0), (12_001, 36)] {
            let found = answer(&filled(nodes - more), mandatory, optional);
            assert_eq!(found, wanted, "{mandatory:?} {optional:?}, {nodes} nodes");
        }
        let file = filled(12_000 - more).encode();
        let written = join(&file, mandatory, optional, MAX_BYTES).expect("accepted");
        assert_eq!(written.len(), MAX_BYTES);
        assert_eq!(join(&file, mandatory, optional, MAX_BYTES - 1), Err(36));
        assert_eq!(answer(&filled(12_000), mandatory, optional), 36);
    }
}

/// A guard of so many negations of a variable, so deep.
fn deep_guard(depth: usize) -> Expr {
    (1..depth).fold(Expr::Variable(0), |inner, _| inner.negated())
}

/// The shop's first transition with this guard and this action, and its second with a guard of `true` and nothing to do.
fn deep(guard: Expr, action: Instr) -> Model {
    let mut model = shop();
    model.transitions[0].guard = guard;
    model.transitions[0].action = action;
    model.transitions[1] = transition(1, always(), Instr::Skip);
    model
}

/// A mandatory guard: alone, and joined, one or two levels deeper.
#[test]
fn depth_of_mandatory_guards() {
    for (depth, members, wanted) in [
        (32, &[0][..], 0),
        (31, &[0, 1], 0),
        (31, &[1, 0], 0),
        (32, &[0, 1], 36),
        (32, &[1, 0], 36),
        (31, &[0, 1, 1], 0),
        (31, &[1, 0, 1], 36),
        (31, &[1, 1, 0], 36),
        (30, &[1, 0, 1], 0),
        (30, &[1, 1, 0], 0),
    ] {
        let model = deep(deep_guard(depth), Instr::Skip);
        assert_eq!(answer(&model, members, &[]), wanted, "{depth} {members:?}");
    }
}

/// An optional guard: in the action two levels deeper, and joined where there is no mandatory member.
#[test]
fn depth_of_optional_guards() {
    for (depth, members, wanted) in [
        (30, &[0][..], 0),
        (31, &[0], 36),
        (30, &[1, 0], 0),
        (30, &[1, 1, 0], 0),
        (30, &[1, 0, 1, 1], 0),
        (30, &[1, 1, 0, 1], 36),
        (29, &[1, 1, 0, 1], 0),
        (29, &[1, 1, 1, 1, 0], 36),
    ] {
        let model = deep(deep_guard(depth), Instr::Skip);
        assert_eq!(answer(&model, &[], members), wanted, "{depth} {members:?}");
        let beside = if depth == 31 { 36 } else { 0 };
        assert_eq!(
            answer(&model, &[1], members),
            beside,
            "{depth} {members:?}, one mandatory"
        );
    }
}

/// A mandatory action one level deeper, an optional one two: of blocks, of conditions, of an expression.
#[test]
fn depth_of_actions() {
    let blocks = |depth| (1..depth).fold(Instr::Skip, |inner, _| Instr::Block(vec![inner]));
    let conditions = |depth| (1..depth).fold(Instr::Skip, |inner, _| Instr::when(always(), inner));
    let assigned = |depth| Instr::Assign(0, deep_guard(depth - 1));
    let condition = |depth| Instr::when(deep_guard(depth - 1), Instr::Skip);
    let actions: [&dyn Fn(usize) -> Instr; 4] = [&blocks, &conditions, &assigned, &condition];
    for action in actions {
        for (depth, mandatory, optional) in [(30, 0, 0), (31, 0, 36), (32, 36, 36)] {
            let model = deep(always(), action(depth));
            assert_eq!(model.transitions[0].action.depth(), depth);
            assert_eq!(answer(&model, &[0], &[]), mandatory);
            assert_eq!(answer(&model, &[1, 0, 1], &[]), mandatory);
            assert_eq!(answer(&model, &[], &[0]), optional);
            assert_eq!(answer(&model, &[1, 1], &[1, 0]), optional);
        }
    }
}

/// A slice of exactly the new length is enough.
#[test]
fn slices() {
    let file = shop().encode();
    for (mandatory, optional) in [(&[0][..], &[][..]), (&[], &[1]), (&[3, 2], &[0, 0])] {
        let long = join(&file, mandatory, optional, CELLS).expect("accepted");
        let length = long.len();
        for cells in [0, 9, 10, file.len(), length - 5, length - 1] {
            assert_eq!(join(&file, mandatory, optional, cells), Err(36), "{cells}");
        }
        for cells in [length, length + 1, 2 * length, 100_000] {
            let written = join(&file, mandatory, optional, cells);
            assert_eq!(written.as_ref(), Ok(&long), "{cells}");
        }
    }
}

/// 1 to 8, then 35, then 11 for a member of either list, then 36.
#[test]
fn orders_of_refusal() {
    let file = shop().encode();
    let full = Model {
        events: 65_535,
        ..shop()
    };
    for (mandatory, optional, number) in [
        (&[][..], &[][..], 35),
        (&[5], &[], 11),
        (&[], &[5], 11),
        (&[0, 5], &[0], 11),
        (&[0], &[0, 0, 5], 11),
        (&[256], &[], 11),
        (&[65_536], &[], 11),
        (&[0], &[1 << 32], 11),
        (&[usize::MAX], &[], 11),
        (&[0; 40], &[5], 11),
        (&[0; 40], &[4], 36),
        (&[4], &[4], 36),
    ] {
        // The file is cut short, or has a node too many; or there is no cell to write to.
        assert_eq!(join(&file[..11], mandatory, optional, 0), Err(3));
        let refused = tree::encode([0, 0, 0, 0], &[(16, 0), (16, 0)]);
        assert_eq!(join(&refused, mandatory, optional, 0), Err(8));
        assert_eq!(join(&file, mandatory, optional, 0), Err(number));
        assert_eq!(join(&full.encode(), mandatory, optional, 0), Err(number));
        assert_eq!(answer(&full, mandatory, optional), number);
    }
    assert_eq!(join(&[], &[], &[], 0), Err(1));
    let empty = tree::encode([0, 0, 0, 0], &[(16, 0)]);
    assert_eq!(join(&empty, &[], &[], 0), Err(35));
    assert_eq!(join(&empty, &[0], &[], CELLS), Err(11));
    assert_eq!(join(&empty, &[], &[0], CELLS), Err(11));
}

/// 100,000 members of which the last is none of the model's are 11; 15,000 that are there are 36.
#[test]
fn long_lists() {
    let model = shop();
    let (mut last, many) = (vec![0; 100_000], vec![4; 15_000]);
    assert_eq!(answer(&model, &last, &[]), 36);
    assert_eq!(answer(&model, &[], &last), 36);
    last[99_999] = 5;
    assert_eq!(answer(&model, &last, &[]), 11);
    assert_eq!(answer(&model, &[], &last), 11);
    assert_eq!(answer(&model, &many, &last), 11);
    assert_eq!(answer(&model, &last, &many), 11);
    for (mandatory, optional) in [(&many[..], &[][..]), (&[], &many), (&[0], &many)] {
        assert_eq!(answer(&model, mandatory, optional), 36);
    }
}

/// A started run of the shop with a join: b is 1, x and the flow are 2, or as given.
struct Run {
    model: Vec<u8>,
    store: Store,
}

impl Run {
    fn new(mandatory: &[usize], optional: &[usize], values: [i32; 3]) -> Self {
        let file = shop().encode();
        let model = join(&file, mandatory, optional, CELLS).expect("accepted");
        let mut store = Store::new(&[9; 3], &[9; 6], &[9; 4], 9, &[9; 6]);
        let start = Call {
            row: START,
            number: 0,
        };
        assert_eq!(start.perform(&ENGINE, &model, &mut store), 0);
        store.values.cells_mut().copy_from_slice(&values);
        Run { model, store }
    }

    fn call(&mut self, row: usize, number: usize) -> u8 {
        Call { row, number }.perform(&ENGINE, &self.model, &mut self.store)
    }

    /// What firing the new transition answers, and the values afterwards.
    fn fire(&mut self) -> (u8, [i32; 3]) {
        let answer = self.call(FIRE, 5);
        (answer, self.store.values.cells().try_into().expect("three"))
    }
}

#[test]
fn fired_together() {
    for (mandatory, optional, values, wanted) in [
        // Both mandatory ones, over the old values.
        (&[0, 1][..], &[][..], [1, 2, 2], (0, [0, 3, 3])),
        (&[1, 1, 0], &[], [1, 2, 2], (0, [0, 3, 3])),
        (&[0, 1], &[], [0, 2, 2], (23, [0, 2, 2])),
        (&[0, 1], &[], [1, 3, 3], (23, [1, 3, 3])),
        // An optional one whose guard is false is left out; it is read over the old values.
        (&[0], &[2], [1, 2, 2], (0, [0, 2, 2])),
        (&[4], &[2], [0, 2, 2], (0, [1, 5, 5])),
        (&[0], &[1], [0, 2, 2], (23, [0, 2, 2])),
        // Of optional ones alone one at least can fire.
        (&[], &[0, 2], [1, 2, 2], (0, [0, 2, 2])),
        (&[], &[0, 2], [0, 2, 2], (0, [0, 5, 5])),
        (&[], &[0], [0, 2, 2], (23, [0, 2, 2])),
        (&[], &[0, 1], [0, 4, 4], (23, [0, 4, 4])),
        // Two values for one variable: 27, whichever lists they come from.
        (&[1, 3], &[], [1, 2, 2], (27, [1, 2, 2])),
        (&[0], &[4], [1, 2, 2], (27, [1, 2, 2])),
        (&[], &[1, 3], [1, 2, 2], (27, [1, 2, 2])),
        // A guard that failed: 24 where it decides, 25 in the action.
        (&[3], &[], [1, 0, 0], (24, [1, 0, 0])),
        (&[3, 0], &[], [0, 0, 0], (23, [0, 0, 0])),
        (&[0], &[3], [1, 0, 0], (25, [1, 0, 0])),
        (&[], &[3, 0], [1, 0, 0], (25, [1, 0, 0])),
        (&[], &[3, 0], [0, 0, 0], (24, [0, 0, 0])),
    ] {
        let found = Run::new(mandatory, optional, values).fire();
        assert_eq!(found, wanted, "{mandatory:?} {optional:?} {values:?}");
    }
}

/// Start, marks, pick, fire and undo with the new transition.
#[test]
fn a_run_of_the_new_model() {
    let mut run = Run::new(&[0, 1], &[3], [1, 2, 2]);
    assert_eq!(run.store.marks.cells(), [1, 1, 0, 1, 1, 1]);
    // The mandatory raise and the optional setting to 0 give x two values.
    assert_eq!(run.fire(), (27, [1, 2, 2]));
    assert_eq!(run.call(FIRE, 3), 0);
    assert_eq!(run.store.marks.cells(), [1, 1, 0, 2, 1, 1]);
    assert_eq!(run.fire(), (25, [1, 0, 0]));
    assert_eq!(run.call(FIRE, 1), 0);
    assert_eq!(run.fire(), (0, [0, 2, 2]));
    assert_eq!(run.store.marks.cells(), [0, 1, 1, 1, 1, 0]);
    assert_eq!(run.call(MARKS, 0), 0);
    assert_eq!(run.store.buffer.cells(), [0, 1, 1, 1, 1, 0]);
    assert_eq!(run.store.history.cells(), [3, 1, 5, 9]);
    assert_eq!((run.call(PICK, 0), run.store.transition.get()), (0, 1));
    assert_eq!(run.call(UNDO, 0), 0);
    assert_eq!(run.store.values.cells(), [1, 1, 1]);
    assert_eq!(run.store.marks.cells(), [1, 1, 0, 0, 1, 1]);
    assert_eq!(run.call(FIRE, 6), 11);
}

/// A run goes on under the new model once its marks have a cell more, and a mark in it.
#[test]
fn a_run_that_goes_on() {
    let old = shop().encode();
    let new = join(&old, &[0], &[1], CELLS).expect("accepted");
    let fire = |model: &[u8], marks: &[u8], history: &[u16], transition| {
        let mut store = Store::new(&[1, 2, 2], marks, history, 1, &[]);
        let call = Call {
            row: FIRE,
            number: transition,
        };
        (call.perform(&ENGINE, model, &mut store), store)
    };
    for transition in 0..5 {
        let (one, before) = fire(&old, &[2, 2, 2, 2, 2, 1], &[4, 9], transition);
        let (two, mut after) = fire(&new, &[2, 2, 2, 2, 2, 1], &[4, 9], transition);
        assert_eq!(one, two);
        after.marks.cells_mut()[5] = 1;
        assert_eq!(before.differences(&after), [""; 0]);
        // Cell T is of the new model alone, an entry T of the history too.
        assert_eq!(fire(&new, &[2; 5], &[4, 9], transition).0, 10);
        assert_eq!(fire(&new, &[2, 2, 2, 2, 2, 3], &[4, 9], transition).0, 20);
        assert_eq!(fire(&old, &[2; 6], &[5, 9], transition).0, 20);
        assert_eq!(fire(&new, &[2; 6], &[5, 9], transition).0, one);
    }
}
