//! Random texts and what is lent to them: expressions that mostly fit a model, damaged ones, deep and long ones, words
//! and bytes in any order.

use crate::calls::Typed;
use crate::random::Random;
use crate::tree::{Model, Variable};

/// Bytes of the longest text, and cells that are lent for its nodes.
const MAX_TEXT: usize = 200;
const CELLS: usize = 400;

const WORDS: [&str; 31] = [
    "(", ")", ",", "+", "-", "*", "<", "<=", ">", ">=", "==", "!=", "=", "!", "not", "and", "or",
    "if", "then", "else", "div", "mod", "true", "false", "v0", "v1", "v", "0", "7", "01", "v00",
];

/// A text with slices of any length and content, mostly 400 cells.
pub fn typed(random: &mut Random, model: &Model) -> Typed {
    let text = text(random, model);
    let length = slice_length(random);
    let kinds: Vec<u8> = (0..length).map(|_| random.byte()).collect();
    let length = slice_length(random);
    let parameters: Vec<i32> = (0..length).map(|_| random.number()).collect();
    Typed::new(&text, &kinds, &parameters, random.bits() as usize)
}

fn slice_length(random: &mut Random) -> usize {
    match random.below(40) {
        0 => 0,
        1 => CELLS - 1,
        2 => random.below(CELLS),
        3..=9 => CELLS + random.between(1, 100),
        _ => CELLS,
    }
}

fn text(random: &mut Random, model: &Model) -> Vec<u8> {
    let mut text = match random.below(20) {
        0 => (0..random.below(12)).map(|_| random.byte()).collect(),
        1 => random_words(random),
        2 => repeated(random),
        3..=5 => deep(random),
        _ => {
            let mut typist = Typist::new(random, model);
            let boolean = typist.random.coin();
            let size = *typist.random.one(&[0, 1, 1, 2, 2, 3, 4, 6, 9, 14, 25]);
            typist.expression(boolean, 0, size);
            let mut words = typist.words;
            if random.chance(1, 6) {
                damage_words(random, &mut words);
            }
            spaced(random, &words)
        }
    };
    if random.chance(1, 8) {
        damage_bytes(random, &mut text);
    }
    if random.chance(1, 12) {
        stretch(random, &mut text);
    }
    text
}

/// Writes expressions level by level: 0 if-then-else, 1 or, 2 and, 3 not, 4 relations, 5 signs, 6 sums, 7 products,
/// 8 calls.
struct Typist<'r> {
    random: &'r mut Random,
    booleans: Vec<usize>,
    numbers: Vec<usize>,
    /// How many expressions in a thousand have the other type, how many lack parentheses that they need, and how many
    /// variables and numbers are too large or begin with a zero.
    misfits: usize,
    loose: usize,
    wild: usize,
    words: Vec<String>,
}

impl<'r> Typist<'r> {
    fn new(random: &'r mut Random, model: &Model) -> Self {
        let (mut booleans, mut numbers) = (Vec::new(), Vec::new());
        for (place, variable) in model.variables().enumerate() {
            match variable {
                Variable::Boolean { .. } => booleans.push(place),
                Variable::Number { .. } => numbers.push(place),
            }
        }
        Typist {
            misfits: *random.one(&[0, 0, 30, 200]),
            loose: *random.one(&[0, 0, 0, 100]),
            wild: *random.one(&[0, 0, 30, 200]),
            random,
            booleans,
            numbers,
            words: Vec::new(),
        }
    }

    fn word(&mut self, word: &str) {
        self.words.push(word.to_string());
    }

    /// An expression of so many operators, in parentheses where it binds looser than `loosest`.
    fn expression(&mut self, boolean: bool, loosest: usize, size: usize) {
        let boolean = boolean != self.random.chance(self.misfits, 1_000);
        let level = match (size, boolean) {
            (0, _) => 8,
            (_, true) => *self.random.one(&[0, 1, 1, 2, 2, 3, 3, 4, 4, 4]),
            (_, false) => *self.random.one(&[0, 5, 5, 6, 6, 6, 7, 7, 8]),
        };
        let is_needed = level < loosest && !self.random.chance(self.loose, 1_000);
        let is_enclosed = is_needed || self.random.chance(1, 12);
        if is_enclosed {
            self.word("(");
        }
        if size == 0 {
            self.leaf(boolean);
        } else {
            self.operation(boolean, level, size - 1);
        }
        if is_enclosed {
            self.word(")");
        }
    }

    /// An operation whose operands have so many operators.
    fn operation(&mut self, boolean: bool, level: usize, size: usize) {
        let first = self.random.between(0, size);
        let rest = size - first;
        match level {
            0 => {
                let second = self.random.between(0, rest);
                self.word("if");
                self.expression(true, 0, first);
                self.word("then");
                self.expression(boolean, 0, second);
                self.word("else");
                self.expression(boolean, 0, rest - second);
            }
            1 => self.infix(true, ["or"; 2], [1, 2], [first, rest]),
            2 => self.infix(true, ["and"; 2], [2, 3], [first, rest]),
            3 => {
                self.word("not");
                self.expression(true, 3, size);
            }
            4 if self.random.chance(1, 4) => {
                self.infix(true, ["==", "!="], [5, 5], [first, rest]);
            }
            4 => {
                let pairs = [["<", "<="], [">", ">="], ["==", "!="]];
                let signs = *self.random.one(&pairs);
                self.infix(false, signs, [5, 5], [first, rest]);
            }
            5 => {
                let sign = *self.random.one(&["+", "-", "-"]);
                self.word(sign);
                self.expression(false, 5, size);
            }
            6 => self.infix(false, ["+", "-"], [6, 7], [first, rest]),
            7 => self.infix(false, ["*"; 2], [7, 8], [first, rest]),
            _ => {
                let name = *self.random.one(&["div", "mod"]);
                self.word(name);
                self.word("(");
                self.expression(false, 0, first);
                self.word(",");
                self.expression(false, 0, rest);
                self.word(")");
            }
        }
    }

    fn infix(&mut self, boolean: bool, signs: [&str; 2], levels: [usize; 2], sizes: [usize; 2]) {
        self.expression(boolean, levels[0], sizes[0]);
        let sign = *self.random.one(&signs);
        self.word(sign);
        self.expression(boolean, levels[1], sizes[1]);
    }

    fn leaf(&mut self, boolean: bool) {
        let is_wild = self.random.chance(self.wild, 1_000);
        let is_constant = self.random.chance(1, 3);
        let fitting = match boolean {
            true => &self.booleans,
            false => &self.numbers,
        };
        let word = if is_wild && !is_constant {
            let variables = self.booleans.len() + self.numbers.len();
            format!("v{}", large(self.random, variables))
        } else if !is_constant && !fitting.is_empty() {
            format!("v{}", self.random.one(fitting))
        } else if boolean {
            self.random.coin().to_string()
        } else if is_wild {
            large(self.random, 2_147_483_648)
        } else {
            let any = self.random.below(2_147_483_648);
            let below = self.random.below(20);
            let largest = 2_147_483_647;
            self.random
                .one(&[below, below, below, any, largest])
                .to_string()
        };
        self.word(&word);
    }
}

/// A number near `limit`, one that is below it when cut to fewer bits, or digits of any length.
fn large(random: &mut Random, limit: usize) -> String {
    let near = limit + random.below(3);
    match random.below(6) {
        0 => limit.saturating_sub(1).to_string(),
        1 | 2 => near.to_string(),
        3 => {
            let cut = *random.one(&[8, 16, 32, 64]);
            let small = random.below(limit.max(1)) as u128;
            ((1_u128 << cut) + small).to_string()
        }
        4 => format!("0{}", random.below(3)),
        _ => {
            let length = match random.chance(1, 4) {
                true => 199,
                false => random.between(10, 41),
            };
            let digits = (0..length).map(|place| random.between(usize::from(place == 0), 9));
            digits.map(|digit| digit.to_string()).collect()
        }
    }
}

/// The words with spaces between them, at least where two of them would become one.
fn spaced(random: &mut Random, words: &[String]) -> Vec<u8> {
    let most = *random.one(&[0, 0, 1, 3]);
    let mut text = " ".repeat(random.between(0, most));
    for word in words {
        let ends = |byte: Option<char>| byte.is_some_and(|byte| byte.is_ascii_alphanumeric());
        if ends(text.chars().last()) && ends(word.chars().next()) && !random.chance(1, 300) {
            text.push(' ');
        }
        text.push_str(word);
        text.push_str(&" ".repeat(random.between(0, most)));
    }
    text.into_bytes()
}

fn random_words(random: &mut Random) -> Vec<u8> {
    let count = random.between(0, 9);
    let words: Vec<String> = (0..count).map(|_| random.one(&WORDS).to_string()).collect();
    spaced(random, &words)
}

/// One beginning again and again, up to 200 bytes or near it; as many ends, or not.
fn repeated(random: &mut Random) -> Vec<u8> {
    let (beginning, leaf, end) = *random.one(&[
        ("(", "1", ")"),
        ("(", "true", ")"),
        ("-", "v0", ""),
        ("+", "1", ""),
        ("not ", "true", ""),
        ("if ", "true", " then true else true"),
        ("if true then ", "1", " else 2"),
        ("1+(", "1", ")"),
        ("1+", "1", ""),
        ("div(1,", "2", ")"),
        ("-(", "0", ")"),
    ]);
    let most = (MAX_TEXT - leaf.len()) / (beginning.len() + end.len());
    let count = match random.below(3) {
        0 => random.between(1, most + 1),
        1 => MAX_TEXT / beginning.len(),
        _ => most + random.below(2),
    };
    let ends = match random.below(4) {
        0 => 0,
        1 => count.saturating_sub(1),
        _ => count,
    };
    format!("{}{leaf}{}", beginning.repeat(count), end.repeat(ends)).into_bytes()
}

/// What stands before and after an operand, the loosest level that the operand may have, and the level of the whole.
type Around = (&'static str, &'static str, usize, usize);

const AROUND_BOOLEANS: [Around; 7] = [
    ("not ", "", 3, 3),
    ("true and ", "", 3, 2),
    ("", " or true", 1, 1),
    ("true!=", "", 5, 4),
    ("", "==true", 5, 4),
    ("if ", " then true else false", 0, 0),
    ("if true then ", " else false", 0, 0),
];

const AROUND_NUMBERS: [Around; 8] = [
    ("-", "", 5, 5),
    ("+", "", 5, 5),
    ("", "+1", 6, 6),
    ("1-", "", 7, 6),
    ("", "*2", 7, 7),
    ("2*", "", 8, 7),
    ("mod(", ",3)", 0, 8),
    ("if true then ", " else 2", 0, 0),
];

/// Operators one in another, so that the depth is near 32.
fn deep(random: &mut Random) -> Vec<u8> {
    let (leaf, around) = match random.coin() {
        true => ("true", &AROUND_BOOLEANS[..]),
        false => ("1", &AROUND_NUMBERS[..]),
    };
    let often = [*random.one(around), *random.one(around)];
    let (mut text, mut level) = (leaf.to_string(), 8);
    for _ in 0..random.between(26, 34) {
        let &(before, after, loosest, whole) = match random.chance(1, 12) {
            true => random.one(around),
            false => random.one(&often),
        };
        let next = match level < loosest && !random.chance(1, 300) {
            true => format!("{before}({text}){after}"),
            false => format!("{before}{text}{after}"),
        };
        if next.len() > MAX_TEXT + 1 {
            break;
        }
        (text, level) = (next, whole);
    }
    text.into_bytes()
}

fn damage_words(random: &mut Random, words: &mut Vec<String>) {
    for _ in 0..random.between(1, 2) {
        let place = random.below(words.len().max(1));
        let word = random.one(&WORDS).to_string();
        match random.below(4) {
            _ if words.is_empty() => words.push(word),
            0 => {
                words.remove(place);
            }
            1 => words.insert(place, word),
            2 => words[place] = word,
            _ => {
                let other = random.below(words.len());
                words.swap(place, other);
            }
        }
    }
}

fn damage_bytes(random: &mut Random, text: &mut Vec<u8>) {
    let byte = match random.chance(1, 4) {
        true => random.byte(),
        false => *random.one(b" v0123459()+-*<>=!,.\teTz"),
    };
    let place = random.below(text.len().max(1));
    match random.below(4) {
        _ if text.is_empty() => text.push(byte),
        0 => {
            text.remove(place);
        }
        1 => text.insert(place, byte),
        2 => text[place] = byte,
        _ => text.truncate(place),
    }
}

/// To a length near 200, by spaces or by cutting.
fn stretch(random: &mut Random, text: &mut Vec<u8>) {
    let length = random.between(MAX_TEXT - 2, MAX_TEXT + 2);
    if random.coin() {
        text.resize(length, b' ');
        return;
    }
    while text.len() < length {
        let place = random.between(0, text.len());
        // Beside a space or at an end, so that no word is cut.
        if place == 0 || text[place - 1] == b' ' || place == text.len() {
            text.insert(place, b' ');
        }
    }
}
