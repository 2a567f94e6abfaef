//! Windows over the rows of a log, A9: figures and refusals by hand, and both forms of the call on random logs.

use std::collections::BTreeMap;

use bench::calls::{Arguments, Handed, Log};
use bench::model_gen;
use bench::random::Random;
use bench::reference::{self, ENGINE};
use bench::tree::{self, Expr, Instr, Model, Node, Operator, Variable};

use Operator::*;

/// Values of the model's variables: any number, a Boolean, and a number from 0 to 9.
type Row = [i32; 3];

const ANY: Expr = Expr::Variable(0);
const BOOLEAN: Expr = Expr::Variable(1);
const DIGIT: Expr = Expr::Variable(2);

/// How many rows make the condition true, the largest number, and the mark.
type Figures = [i32; 3];

fn model() -> Model {
    let number = |low, high| Variable::Number {
        low,
        high,
        first: low,
    };
    let boolean = Variable::Boolean { first: true };
    let sum = Expr::binary(Plus, Expr::Number(1), Expr::Number(2));
    Model::with_transition(
        vec![number(i32::MIN, i32::MAX), boolean],
        vec![number(0, 9)],
        Expr::binary(Or, BOOLEAN, Expr::Boolean(false)),
        Instr::Block(vec![Instr::Skip, Instr::Assign(1, BOOLEAN.negated())]),
        Instr::Block(vec![Instr::Assign(2, sum), Instr::Skip]),
    )
}

fn handed(expr: &Expr) -> Handed {
    Handed::of(&expr.nodes())
}

/// Figures of 77, as many as there are rows.
fn log(condition: &Expr, number: &Expr, window: usize, rows: &[Row]) -> Log {
    let expressions = [handed(condition), handed(number)];
    let figures = vec![77; 3 * rows.len()];
    Log::new(expressions, window, &rows.concat(), &figures, 9_999)
}

/// What is answered to a log, the same in both forms and for twins. A refusal leaves everything, and the cells after the
/// figures stay.
fn performed(random: &mut Random, file: &[u8], log: &Log) -> Result<Vec<Figures>, u8> {
    let mut found = log.clone();
    let answer = found.perform(&ENGINE, file);
    assert!(found.intact());
    let (twin_file, mut twin) = model_gen::twins(random, file, log);
    assert_eq!(twin.perform(&ENGINE, &twin_file), answer, "in the twin");
    assert!(found.figures == twin.figures && found.count == twin.count);
    let mut plain = log.clone();
    assert_eq!(one_by_one(file, &mut plain), answer, "one by one");
    assert_eq!(plain.differences(&found), [""; 0], "one by one");
    if answer != 0 {
        assert_eq!(found.differences(log), [""; 0], "answers {answer}");
        return Err(answer);
    }
    let (figures, rest) = found.figures.cells().split_at(3 * found.count.get());
    assert_eq!(rest, &log.figures.cells()[figures.len()..]);
    let figures = figures.chunks_exact(3).map(|row| [row[0], row[1], row[2]]);
    Ok(figures.collect())
}

/// The call with each window by itself.
fn one_by_one(file: &[u8], log: &mut Log) -> u8 {
    let written = reference::windows_one_by_one(
        file,
        log.condition.nodes(),
        log.number.nodes(),
        log.window,
        log.rows.cells(),
        log.figures.cells_mut(),
    );
    match written {
        Ok(count) => {
            *log.count.get_mut() = count;
            0
        }
        Err(refusal) => refusal.number(),
    }
}

/// What is answered beside the model of this file.
fn answered(log: &Log) -> Result<Vec<Figures>, u8> {
    performed(&mut Random::new(9), &model().encode(), log)
}

fn figures(condition: &Expr, number: &Expr, window: usize, rows: &[Row]) -> Vec<Figures> {
    answered(&log(condition, number, window, rows)).expect("accepted")
}

/// Rows of these numbers; the Boolean is true in every second row.
fn rows_of(numbers: &[i32]) -> Vec<Row> {
    let numbers = numbers.iter().enumerate();
    let row = |(place, &number)| [number, (place % 2) as i32, (place % 10) as i32];
    numbers.map(row).collect()
}

#[test]
fn by_hand() {
    let rows = [[3, 1, 0], [5, 0, 0], [4, 1, 0], [4, 1, 0], [-1, 0, 0]];
    for (window, wanted) in [
        (1, [[1, 3, 1], [0, 5, 1], [1, 4, 1], [1, 4, 1], [0, -1, 1]]),
        (2, [[1, 3, 1], [1, 5, 1], [1, 5, 1], [2, 4, 1], [1, 4, 1]]),
        (3, [[1, 3, 1], [1, 5, 1], [2, 5, 1], [2, 5, 1], [2, 4, 1]]),
        (4, [[1, 3, 1], [1, 5, 1], [2, 5, 1], [3, 5, 1], [2, 5, 1]]),
        (5, [[1, 3, 1], [1, 5, 1], [2, 5, 1], [3, 5, 1], [3, 5, 1]]),
        (6, [[1, 3, 1], [1, 5, 1], [2, 5, 1], [3, 5, 1], [3, 5, 1]]),
    ] {
        assert_eq!(figures(&BOOLEAN, &ANY, window, &rows), wanted, "{window}");
    }
}

/// The least numbers are numbers too: only the mark tells that there is none.
#[test]
fn negative_numbers_and_ends() {
    let (least, most) = (i32::MIN, i32::MAX);
    for (numbers, window, largest) in [
        (&[-5, -3, -4, -9][..], 2, &[-5, -3, -3, -4][..]),
        (&[least, least, -1, least], 2, &[least, least, -1, -1]),
        (
            &[most, least, most - 1, 0],
            2,
            &[most, most, most - 1, most - 1],
        ),
        (&[least, most, least, least], 3, &[least, most, most, most]),
        (&[0, -1, -2, -3], 3, &[0, 0, 0, -1]),
    ] {
        let found = figures(&BOOLEAN, &ANY, window, &rows_of(numbers));
        let found: Vec<[i32; 2]> = found.iter().map(|row| [row[1], row[2]]).collect();
        let wanted: Vec<[i32; 2]> = largest.iter().map(|&number| [number, 1]).collect();
        assert_eq!(found, wanted, "{numbers:?}");
    }
}

/// Fails by a zero divisor where the digit is 0, and by a number beyond 32 bits where the number is large.
fn fragile() -> Expr {
    let quotient = Expr::binary(Div, Expr::Number(18), DIGIT);
    Expr::binary(Plus, quotient, Expr::binary(Times, ANY, ANY))
}

#[test]
fn failed_rows_add_nothing() {
    const ZERO_DIVISOR: Row = [0, 1, 0];
    const TOO_LARGE: Row = [46_341, 0, 1];
    const BOTH: Row = [46_341, 1, 0];
    const NINE: Row = [0, 1, 2];
    const SIX: Row = [0, 0, 3];
    let number = fragile();
    let condition = Expr::binary(Less, Expr::Number(7), number.clone());
    let (none, nine, six) = ([0, 0, 0], [1, 9, 1], [0, 6, 1]);
    for (window, rows, wanted) in [
        // All of them.
        (2, &[ZERO_DIVISOR, TOO_LARGE, BOTH][..], &[none; 3][..]),
        // At the front of the window, at its back, and between.
        (2, &[ZERO_DIVISOR, NINE, SIX], &[none, nine, nine]),
        (2, &[NINE, BOTH, TOO_LARGE], &[nine, nine, none]),
        (3, &[NINE, TOO_LARGE, SIX, SIX], &[nine, nine, nine, six]),
        (3, &[SIX, ZERO_DIVISOR, NINE], &[six, six, nine]),
        (1, &[SIX, TOO_LARGE, NINE], &[six, none, nine]),
        (2, &[NINE, NINE, BOTH], &[nine, [2, 9, 1], nine]),
    ] {
        assert_eq!(
            figures(&condition, &number, window, rows),
            wanted,
            "{rows:?}"
        );
    }
}

/// One expression fails and the other does not; `and` and `or` are decided by an operand that did not fail.
#[test]
fn each_figure_by_itself() {
    let rows = [[1, 1, 0], [2, 0, 0], [3, 1, 1]];
    let failing = Expr::binary(Less, Expr::Number(0), fragile());
    let either = Expr::binary(Or, failing.clone(), BOOLEAN);
    let both = Expr::binary(And, failing.clone(), BOOLEAN);
    let counted = |condition: &Expr, number: &Expr| {
        let last = figures(condition, number, 3, &rows);
        *last.last().expect("three rows")
    };
    assert_eq!(counted(&failing, &ANY), [1, 3, 1]);
    assert_eq!(counted(&BOOLEAN, &fragile()), [2, 27, 1]);
    assert_eq!(counted(&either, &ANY), [2, 3, 1]);
    assert_eq!(counted(&both.negated(), &ANY), [1, 3, 1]);
}

/// The figures of rows whose condition is the Boolean and whose number is the first.
fn expected(rows: &[Row], window: usize) -> Vec<Figures> {
    let ends = 1..=rows.len();
    ends.map(|end| {
        let within = &rows[end.saturating_sub(window)..end];
        let largest = within.iter().map(|row| row[0]).max();
        let count = within.iter().map(|row| row[1]).sum();
        [count, largest.expect("a row"), 1]
    })
    .collect()
}

/// Rising, falling, equal, alternating, in waves, and in no order.
fn series(random: &mut Random, count: usize) -> [Vec<i32>; 6] {
    let each = |number: fn(i32) -> i32| (0..count as i32).map(number).collect();
    [
        each(|place| place - 500),
        each(|place| 500 - place),
        each(|_| -7),
        each(|place| if place % 2 == 0 { i32::MIN } else { place }),
        each(|place| (place % 170 - 85).abs()),
        (0..count).map(|_| random.number()).collect(),
    ]
}

#[test]
fn lengths_of_windows_and_logs() {
    let mut random = Random::new(41);
    for count in [0, 1, 2, 3, 999, 1_000, 1_001, 5_000] {
        for numbers in series(&mut random, count) {
            let rows = rows_of(&numbers);
            let windows = [1, 2, 3, 60, 999, 1_000];
            let near = [count.saturating_sub(1), count, count + 1];
            for window in windows.into_iter().chain(near) {
                let found = answered(&log(&BOOLEAN, &ANY, window, &rows));
                let wanted = match window {
                    1..=1_000 => Ok(expected(&rows, window)),
                    _ => Err(41),
                };
                assert!(found == wanted, "{window} of {count} rows");
            }
        }
    }
}

#[test]
fn windows_that_are_refused() {
    for rows in [&[][..], &[[1, 1, 1]; 3]] {
        for window in [0, 1_001, 1_256, 65_537, (1 << 32) + 1, usize::MAX] {
            let found = answered(&log(&BOOLEAN, &ANY, window, rows));
            assert_eq!(found, Err(41), "{window}");
        }
    }
}

/// A log whose rows and figures have so many cells; all values are 1.
fn log_of_cells(cells: usize, figures: usize) -> Log {
    let expressions = [handed(&BOOLEAN), handed(&DIGIT)];
    Log::new(expressions, 2, &vec![1; cells], &vec![77; figures], 9_999)
}

#[test]
fn whole_rows() {
    for cells in 0..20 {
        let found = answered(&log_of_cells(cells, 3 * cells));
        let rows = found.map(|figures| figures.len());
        let wanted = if cells % 3 == 0 {
            Ok(cells / 3)
        } else {
            Err(41)
        };
        assert_eq!(rows, wanted, "{cells} cells");
    }
}

#[test]
fn slices_for_figures() {
    for rows in 0..5 {
        for figures in 0..20 {
            let found = answered(&log_of_cells(3 * rows, figures));
            let count = found.map(|figures| figures.len());
            let wanted = if figures < 3 * rows {
                Err(10)
            } else {
                Ok(rows)
            };
            assert_eq!(count, wanted, "{figures} cells for {rows} rows");
        }
    }
}

/// Without variables there are no rows, not even none.
#[test]
fn no_variables() {
    let file = tree::encode([0, 0, 3, 0], &[(16, 0)]);
    let mut random = Random::new(0);
    for cells in [0, 1, 3] {
        let expressions = [Expr::Boolean(true), Expr::Number(1)].map(|expr| handed(&expr));
        let log = Log::new(expressions, 1, &vec![1; cells], &[77; 9], 9);
        assert_eq!(performed(&mut random, &file, &log), Err(41), "{cells}");
    }
}

/// Every value of every row is looked at.
#[test]
fn values_outside() {
    let fitting = [[i32::MIN, 0, 0], [i32::MAX, 1, 9], [0, 0, 5]];
    assert!(answered(&log(&BOOLEAN, &ANY, 2, &fitting)).is_ok());
    for place in 0..fitting.len() {
        for (variable, value) in [
            (1, -1),
            (1, 2),
            (2, -1),
            (2, 10),
            (1, i32::MIN),
            (2, i32::MAX),
        ] {
            let mut rows = fitting;
            rows[place][variable] = value;
            // No expression reads the value.
            let always = log(&Expr::Boolean(true), &Expr::Number(1), 1, &rows);
            assert_eq!(
                answered(&always),
                Err(20),
                "row {place}, v{variable} is {value}"
            );
        }
    }
}

/// Expressions that are refused, by number: of the condition and of the number.
fn refused_expressions() -> Vec<(u8, [Handed; 2])> {
    let of = |number, nodes: [&[Node]; 2]| (number, nodes.map(Handed::of));
    let deep = |nodes: &[Node], node: Node| [nodes.repeat(32), vec![node]].concat();
    vec![
        (3, [Handed::new(&[33], &[]), Handed::new(&[32], &[1, 2])]),
        (3, [Handed::new(&[], &[1]), Handed::new(&[32, 32], &[1])]),
        of(4, [&[], &[]]),
        of(4, [&[(36, 0), (33, 1)], &[(41, 0), (32, 1)]]),
        of(5, [&deep(&[(35, 0)], (33, 1)), &deep(&[(42, 0)], (32, 1))]),
        of(6, [&[(32, 1)], &[(33, 1)]]),
        of(6, [&[(41, 0), (32, 1), (32, 1)], &[(99, 0)]]),
        of(7, [&[(34, 0)], &[(34, 1)]]),
        of(7, [&[(34, 3)], &[(34, -1)]]),
        of(7, [&[(33, 2)], &[(41, 1), (32, 1), (32, 1)]]),
        of(8, [&[(33, 1), (33, 1)], &[(32, 1), (32, 1)]]),
    ]
}

#[test]
fn refusals_of_expressions() {
    let refused = refused_expressions();
    // With everything after them wrong too: the window, the slices and the row.
    let answer = |condition: &Handed, number: &Handed| {
        let expressions = [condition.clone(), number.clone()];
        let wrong = Log::new(expressions, 0, &[9; 4], &[77; 2], 9);
        answered(&wrong)
    };
    let (condition, number) = (handed(&BOOLEAN), handed(&ANY));
    assert_eq!(answer(&condition, &number), Err(41));
    for (first, wrong) in &refused {
        assert_eq!(answer(&wrong[0], &number), Err(*first));
        assert_eq!(answer(&condition, &wrong[1]), Err(*first));
        for (second, other) in &refused {
            assert_eq!(answer(&wrong[0], &other[1]), Err(*first), "before {second}");
        }
    }
    // The two exchanged.
    assert_eq!(answer(&number, &condition), Err(7));
}

#[test]
fn refusals_of_models() {
    let model = model();
    let (sizes, nodes) = (model.sizes(), model.nodes());
    let file = model.encode();
    let with = |place: usize, node: Node| {
        let mut nodes = nodes.clone();
        nodes[place] = node;
        tree::encode(sizes, &nodes)
    };
    let more: Vec<Node> = nodes.iter().copied().chain([(16, 0)]).collect();
    let mut random = Random::new(0);
    let nothing = || Handed::of(&[]);
    let wrong = Log::new([nothing(), nothing()], 0, &[9; 4], &[], 9);
    for (number, file) in [
        (1, file[..9].to_vec()),
        (2, tree::encode([4_001, 0, 0, 0], &[(16, 0); 12_001])),
        (3, file[..file.len() - 1].to_vec()),
        (4, tree::encode(sizes, &nodes[..nodes.len() - 1])),
        (5, tree::encode([0; 4], &[(19, 1); 33])),
        (6, with(0, (16, 0))),
        (7, with(4, (1, 2))),
        (8, tree::encode(sizes, &more)),
        (
            37,
            tree::encode([4_001, 0, 0, 0], &[(16, 0)])[..10].to_vec(),
        ),
        // The model is accepted: the condition is missing.
        (4, file.clone()),
    ] {
        assert_eq!(performed(&mut random, &file, &wrong), Err(number));
    }
}

/// 41 before 10, 10 before 20.
#[test]
fn order_of_the_last_refusals() {
    let outside = [1, 7, 1];
    let answer = |window: usize, cells: usize, figures: usize| {
        let rows = [outside; 4].concat();
        let expressions = [handed(&BOOLEAN), handed(&ANY)];
        let wrong = Log::new(expressions, window, &rows[..cells], &vec![77; figures], 9);
        answered(&wrong)
    };
    for figures in [0, 5, 6, 9] {
        for (window, cells) in [(0, 6), (1_001, 6), (1, 5), (1, 7)] {
            assert_eq!(answer(window, cells, figures), Err(41));
        }
    }
    for window in [1, 2, 3, 1_000] {
        assert_eq!(answer(window, 6, 5), Err(10));
        assert_eq!(answer(window, 6, 0), Err(10));
        assert_eq!(answer(window, 6, 6), Err(20));
        assert_eq!(answer(window, 6, 7), Err(20));
        assert_eq!(answer(window, 0, 0), Ok(vec![]));
    }
}

/// A tree of this operator over so many leaves.
fn tree_of(operator: Operator, leaf: &Expr, leaves: usize) -> Expr {
    match leaves {
        1 => leaf.clone(),
        _ => {
            let left = tree_of(operator, leaf, leaves / 2);
            Expr::binary(operator, left, tree_of(operator, leaf, leaves - leaves / 2))
        }
    }
}

/// More nodes than a model may have, in an expression that is read in full and in a branch that is not chosen.
#[test]
fn long_expressions() {
    let rows = [[1, 1, 3], [2, 0, 9], [3, 1, 0], [-4, 1, 1]];
    let wanted = [[1, 1, 1], [1, 2, 1], [2, 3, 1], [2, 3, 1]];
    for leaves in [2_500, 35_000] {
        let all = tree_of(And, &BOOLEAN, leaves);
        let zero = Expr::binary(Times, DIGIT, tree_of(Plus, &Expr::Number(0), leaves));
        let number = Expr::binary(Plus, ANY, zero);
        assert!(number.nodes().len() > 2 * leaves);
        assert_eq!(figures(&all, &number, 3, &rows)[..3], wanted[..3]);
        let unread = Expr::binary(Less, fragile(), tree_of(Plus, &DIGIT, leaves));
        let condition = Expr::conditional(Expr::Boolean(true), BOOLEAN, unread);
        let number = Expr::conditional(BOOLEAN.negated(), ANY, number);
        assert_eq!(figures(&condition, &number, 3, &rows)[..3], wanted[..3]);
        let never = Expr::binary(Less, DIGIT, Expr::Number(0));
        let number = Expr::conditional(never, tree_of(Minus, &fragile(), leaves), ANY);
        assert_eq!(figures(&condition, &number, 3, &rows)[..3], wanted[..3]);
    }
}

/// An expression's top has depth 1.
#[test]
fn deep_expressions() {
    let deep = |depth: usize| (1..depth).fold(BOOLEAN, |inner, _| inner.negated());
    let chosen = |depth: usize| Expr::conditional(deep(depth - 1), ANY, Expr::Number(5));
    let rows = [[3, 0, 0], [4, 1, 0]];
    let found = figures(&deep(31), &chosen(32), 1, &rows);
    assert_eq!(found, [[0, 5, 1], [1, 4, 1]]);
    for (condition, number) in [(deep(33), chosen(32)), (deep(32), chosen(33))] {
        assert_eq!(answered(&log(&condition, &number, 1, &rows)), Err(5));
    }
}

/// Both forms give the same on random models, whole and damaged, and every answer is met.
#[test]
fn random_logs() {
    let mut random = Random::new(42);
    let mut answers: BTreeMap<u8, usize> = BTreeMap::new();
    let (mut without, mut longest) = (0, 0);
    for _ in 0..10_000 {
        let shape = model_gen::shape(&mut random);
        let model = model_gen::model(&mut random, shape);
        let mut file = model.encode();
        if random.chance(1, 5) {
            file = model_gen::damaged(&mut random, &file);
        }
        let log = model_gen::log(&mut random, &model);
        let found = performed(&mut random, &file, &log);
        let answer = found.as_ref().err().copied().unwrap_or(0);
        *answers.entry(answer).or_default() += 1;
        if let Ok(figures) = found {
            without += usize::from(figures.iter().any(|row| row[2] == 0));
            longest = longest.max(log.number.kinds.cells().len());
        }
    }
    println!("{answers:?}, {without} with rows without a number, {longest} nodes");
    let met: Vec<u8> = answers.keys().copied().collect();
    assert_eq!(met, [0, 1, 2, 3, 4, 5, 6, 7, 8, 10, 20, 37, 41]);
    assert!(answers.values().all(|&times| times > 10), "{answers:?}");
    assert!(answers[&0] > 5_000 && without > 500 && longest > 12_000);
}
