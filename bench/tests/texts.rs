//! Texts through the reference implementation: hand-made ones, random ones, and trees written as texts.

use std::collections::BTreeMap;

use bench::calls::{Arguments, Typed};
use bench::model_gen;
use bench::random::Random;
use bench::reference::{self, Type, ENGINE};
use bench::tree::{Expr, Instr, Model, Operator, Variable};

/// Numbers v0 and v2, Booleans v1 and v3.
fn small() -> Vec<u8> {
    let number = Variable::Number {
        low: 0,
        high: 9,
        first: 0,
    };
    let boolean = Variable::Boolean { first: false };
    let model = Model {
        states: vec![number, boolean],
        flows: vec![number, boolean],
        events: 0,
        transitions: Vec::new(),
        assertion: Instr::Skip,
    };
    model.encode()
}

fn nodes(model: &[u8], text: &str) -> Result<Vec<(u8, i32)>, u8> {
    let (mut kinds, mut parameters) = ([9; 400], [-9; 400]);
    let count = reference::write_nodes(model, text.as_bytes(), &mut kinds, &mut parameters);
    match count {
        Ok(count) => {
            assert!(kinds[count..].iter().all(|&kind| kind == 9));
            assert!(parameters[count..].iter().all(|&parameter| parameter == -9));
            Ok(kinds.into_iter().zip(parameters).take(count).collect())
        }
        Err(refusal) => {
            assert_eq!((kinds, parameters), ([9; 400], [-9; 400]));
            Err(refusal.number())
        }
    }
}

#[test]
fn accepted() {
    let model = small();
    for (text, wanted) in [
        ("v2", &[(34, 2)][..]),
        (" true ", &[(33, 1)]),
        ("-v0 + v2", &[(42, 0), (32, 0), (41, 0), (34, 0), (34, 2)]),
        (
            "-2147483647 - 1",
            &[(42, 0), (32, 0), (42, 0), (32, 2_147_483_647), (32, 1)],
        ),
        ("1-2-3", &[(42, 0), (42, 0), (32, 1), (32, 2), (32, 3)]),
        ("1+2*3", &[(41, 0), (32, 1), (43, 0), (32, 2), (32, 3)]),
        ("+-+1", &[(42, 0), (32, 0), (32, 1)]),
        ("v0>1", &[(39, 0), (32, 1), (34, 0)]),
        ("v0>=1", &[(40, 0), (32, 1), (34, 0)]),
        ("v0!=1", &[(35, 0), (38, 0), (34, 0), (32, 1)]),
        ("v1!=v3", &[(35, 0), (47, 0), (34, 1), (34, 3)]),
        ("1<-2", &[(39, 0), (32, 1), (42, 0), (32, 0), (32, 2)]),
        ("not v1==v3", &[(35, 0), (47, 0), (34, 1), (34, 3)]),
        (
            "v1 or v3 and v1",
            &[(37, 0), (34, 1), (36, 0), (34, 3), (34, 1)],
        ),
        ("div(7,2)", &[(44, 0), (32, 7), (32, 2)]),
        ("mod (7 , 2)", &[(45, 0), (32, 7), (32, 2)]),
        ("if(v1)then(1)else 2", &[(46, 0), (34, 1), (32, 1), (32, 2)]),
    ] {
        assert_eq!(nodes(&model, text).as_deref(), Ok(wanted), "{text}");
    }
    let enclosed = format!("{}1{}", "(".repeat(99), ")".repeat(99));
    assert_eq!(nodes(&model, &enclosed), Ok(vec![(32, 1)]));
}

#[test]
fn refused() {
    let model = small();
    for (text, number) in [
        ("", 32),
        ("   ", 32),
        ("1 + -2", 32),
        ("1 == not v1", 32),
        ("1 + if v1 then 1 else 2", 32),
        ("1<2<3", 32),
        ("01", 32),
        ("v01", 32),
        ("v 0", 32),
        ("2147483648", 32),
        ("1else", 32),
        ("1<==2", 32),
        ("1\t", 32),
        ("div(1)", 32),
        ("div", 32),
        ("(1))", 32),
        ("v9999 + ", 32),
        ("v9999 + true", 12),
        ("true + v4", 12),
        ("v99999999999999999999999", 12),
        ("+true", 33),
        ("1 == true", 33),
        ("if 1 then 2 else 3", 33),
        ("if v1 then 2 else v3", 33),
    ] {
        assert_eq!(nodes(&model, text), Err(number), "{text}");
    }
}

#[test]
fn orders_of_refusal() {
    let model = small();
    let answer = |model: &[u8], text: &str, kinds: usize, parameters: usize| {
        let mut typed = Typed::new(text.as_bytes(), &vec![7; kinds], &vec![7; parameters], 77);
        let before = typed.clone();
        let answer = typed.perform(&ENGINE, model);
        assert!(answer == 0 || typed == before, "{text}");
        answer
    };
    let (long, deep) = ("(".repeat(201), format!("{}1", "-".repeat(32)));
    assert_eq!(answer(&model[1..], &long, 0, 0), 3);
    assert_eq!(answer(&model, &long, 0, 0), 34);
    assert_eq!(answer(&model, &"(".repeat(200), 399, 400), 10);
    assert_eq!(answer(&model, "(", 400, 399), 10);
    assert_eq!(answer(&model, "(", 400, 400), 32);
    assert_eq!(answer(&model, &deep, 400, 400), 34);
    assert_eq!(answer(&model, &deep[1..], 400, 401), 0);
    assert_eq!(answer(&model, &format!("{deep}==true"), 400, 400), 33);
    assert_eq!(answer(&model, &format!("{deep}==v4"), 400, 400), 12);
    assert_eq!(answer(&model, &format!("{deep}==v4 and"), 400, 400), 32);
}

/// What is written passes the check of expressions, for one type alone; a refusal leaves everything; shuffled models
/// give the same; and every answer is met.
#[test]
fn random_texts() {
    let mut random = Random::new(5);
    let mut answers: BTreeMap<u8, usize> = BTreeMap::new();
    for _ in 0..4_000 {
        let shape = model_gen::shape(&mut random);
        let model = model_gen::model(&mut random, shape);
        let twin = model.shuffled(&mut random).encode();
        let mut file = model.encode();
        if random.chance(1, 40) {
            file = model_gen::damaged(&mut random, &file);
        }
        for _ in 0..5 {
            let before = model_gen::typed(&mut random, &model);
            let (mut one, mut two) = (before.clone(), before.clone());
            let answer = one.perform(&ENGINE, &file);
            if file == model.encode() {
                assert_eq!(two.perform(&ENGINE, &twin), answer);
                assert_eq!(one.differences(&two), [""; 0]);
            }
            *answers.entry(answer).or_default() += 1;
            if answer != 0 {
                assert_eq!(one.differences(&before), [""; 0]);
                continue;
            }
            let count = one.count.get();
            let (kinds, parameters) = (one.kinds.cells(), one.parameters.cells());
            assert_eq!(kinds[count..], before.kinds.cells()[count..]);
            assert_eq!(parameters[count..], before.parameters.cells()[count..]);
            let fits = |wanted| {
                let (kinds, parameters) = (&kinds[..count], &parameters[..count]);
                reference::check_expression(&file, kinds, parameters, wanted).is_ok()
            };
            assert!(fits(Type::Boolean) != fits(Type::Number));
        }
    }
    println!("{answers:?}");
    for answer in [0, 10, 12, 32, 33, 34] {
        let met = answers.get(&answer).copied().unwrap_or(0);
        assert!(met > 500, "{answer}: {met} times");
    }
}

/// A tree written as a text, with parentheses only where they are needed.
fn typed_by(expr: &Expr, loosest: usize, text: &mut String) {
    let (level, operands) = match expr {
        Expr::Conditional(..) => (0, (0, 0)),
        Expr::Not(_) => (3, (3, 3)),
        Expr::Binary(operator, ..) => match operator {
            Operator::Or => (1, (1, 2)),
            Operator::And => (2, (2, 3)),
            Operator::Plus | Operator::Minus => (6, (6, 7)),
            Operator::Times => (7, (7, 8)),
            Operator::Div | Operator::Mod => (8, (0, 0)),
            _ => (4, (5, 5)),
        },
        _ => (8, (0, 0)),
    };
    if level < loosest {
        text.push('(');
    }
    match expr {
        Expr::Number(number) => text.push_str(&number.to_string()),
        Expr::Boolean(value) => text.push_str(&value.to_string()),
        Expr::Variable(variable) => text.push_str(&format!("v{variable}")),
        Expr::Not(operand) => {
            text.push_str("not ");
            typed_by(operand, operands.0, text);
        }
        Expr::Binary(operator @ (Operator::Div | Operator::Mod), left, right) => {
            text.push_str(if *operator == Operator::Div {
                "div("
            } else {
                "mod("
            });
            typed_by(left, operands.0, text);
            text.push(',');
            typed_by(right, operands.1, text);
            text.push(')');
        }
        Expr::Binary(operator, left, right) => {
            typed_by(left, operands.0, text);
            text.push_str(match operator {
                Operator::Or => " or ",
                Operator::And => " and ",
                Operator::EqualNumbers | Operator::EqualBooleans => "==",
                Operator::Less => "<",
                Operator::LessOrEqual => "<=",
                Operator::Plus => "+",
                Operator::Minus => "-",
                _ => "*",
            });
            typed_by(right, operands.1, text);
        }
        Expr::Conditional(condition, chosen, other) => {
            text.push_str("if ");
            typed_by(condition, 0, text);
            text.push_str(" then ");
            typed_by(chosen, 0, text);
            text.push_str(" else ");
            typed_by(other, 0, text);
        }
    }
    if level < loosest {
        text.push(')');
    }
}

/// Guards of random models, typed, give their own nodes.
#[test]
fn trees_and_back() {
    let mut random = Random::new(6);
    let mut typed = 0;
    for _ in 0..6_000 {
        let shape = model_gen::shape(&mut random);
        let model = model_gen::model(&mut random, shape);
        let file = model.encode();
        for transition in model.transitions.iter().take(6) {
            let guard = transition.guard.nodes();
            let is_typable = |&(kind, parameter): &(u8, i32)| kind != 32 || parameter >= 0;
            let mut text = String::new();
            typed_by(&transition.guard, 0, &mut text);
            if text.len() <= 200 && guard.iter().all(is_typable) {
                assert_eq!(nodes(&file, &text), Ok(guard), "{text}");
                typed += 1;
            }
        }
    }
    println!("{typed} guards");
    assert!(typed > 5_000, "{typed} guards");
}

/// In how many ways the grammar derives these words at each level, 0 if-then-else to 8 calls, for each beginning and
/// length.
struct Derivations<'w> {
    words: &'w [&'w str],
    ways: Vec<Vec<[u64; 9]>>,
}

impl Derivations<'_> {
    /// In how many ways these words are an expression.
    fn of(words: &[&str]) -> u64 {
        let size = words.len();
        let ways = vec![vec![[0; 9]; size + 1]; size + 1];
        let mut table = Derivations { words, ways };
        for length in 1..=size {
            for from in 0..=size - length {
                for level in (0..9).rev() {
                    table.ways[from][length][level] = table.count(level, from, from + length);
                }
            }
        }
        table.ways[0][size][0]
    }

    fn at(&self, level: usize, from: usize, end: usize) -> u64 {
        end.checked_sub(from)
            .map_or(0, |length| self.ways[from][length][level])
    }

    /// Two expressions with one of these words between them.
    fn joined(&self, between: &[&str], levels: [usize; 2], from: usize, end: usize) -> u64 {
        (from + 1..end)
            .filter(|&place| between.contains(&self.words[place]))
            .map(|place| self.at(levels[0], from, place) * self.at(levels[1], place + 1, end))
            .sum()
    }

    fn count(&self, level: usize, from: usize, end: usize) -> u64 {
        let first = self.words[from];
        let tighter = if level < 8 {
            self.at(level + 1, from, end)
        } else {
            0
        };
        tighter
            + match level {
                0 if first == "if" => (from + 1..end)
                    .filter(|&place| self.words[place] == "then")
                    .map(|place| {
                        let rest = self.joined(&["else"], [0, 0], place + 1, end);
                        self.at(0, from + 1, place) * rest
                    })
                    .sum(),
                1 => self.joined(&["or"], [1, 2], from, end),
                2 => self.joined(&["and"], [2, 3], from, end),
                3 if first == "not" => self.at(3, from + 1, end),
                4 => self.joined(&["<", "!="], [5, 5], from, end),
                5 if first == "-" => self.at(5, from + 1, end),
                6 => self.joined(&["-"], [6, 7], from, end),
                7 => self.joined(&["*"], [7, 8], from, end),
                8 if end - from == 1 => ["1", "true"].contains(&first).into(),
                8 if self.words[end - 1] != ")" => 0,
                8 if first == "(" => self.at(0, from + 1, end - 1),
                8 if first == "div" && self.words[from + 1] == "(" => {
                    self.joined(&[","], [0, 0], from + 2, end - 1)
                }
                _ => 0,
            }
    }
}

/// A text is in the grammar where its words have a derivation, and then they have exactly one.
#[test]
fn one_reading() {
    const WORDS: [&str; 16] = [
        "1", "true", "(", ")", ",", "div", "*", "-", "<", "not", "and", "or", "if", "then", "else",
        "!=",
    ];
    let model = small();
    let is_read = |words: &[&str]| {
        let ways = Derivations::of(words);
        let is_read = nodes(&model, &words.join(" ")) != Err(32);
        assert_eq!(ways, u64::from(is_read), "{words:?}");
        is_read
    };
    // All lists of at most four words.
    let mut read: Vec<Vec<&str>> = Vec::new();
    let mut lists: Vec<Vec<&str>> = vec![Vec::new()];
    for _ in 0..4 {
        lists = lists
            .iter()
            .flat_map(|list| WORDS.map(|word| [&list[..], &[word]].concat()))
            .collect();
        read.extend(lists.iter().filter(|list| is_read(list)).cloned());
    }
    read.push("if true then 1 else 1".split(' ').collect());
    read.push("div ( 1 , 1 )".split(' ').collect());
    // Longer ones: for some words of an expression another expression, and at times one word more or changed.
    let mut random = Random::new(7);
    let mut accepted = 0;
    for _ in 0..200_000 {
        let mut words = random.one(&read).clone();
        for _ in 0..random.between(1, 4) {
            let place = random.below(words.len());
            if ["1", "true"].contains(&words[place]) && words.len() < 20 {
                words.splice(place..=place, random.one(&read).iter().copied());
            }
        }
        if random.chance(1, 4) {
            let place = random.below(words.len());
            let end = place + random.below(2);
            words.splice(place..end, [*random.one(&WORDS)]);
        }
        accepted += usize::from(is_read(&words));
    }
    println!(
        "{} short ones, {accepted} of 200000 longer ones",
        read.len()
    );
    assert!((50_000..150_000).contains(&accepted), "{accepted} are read");
}
