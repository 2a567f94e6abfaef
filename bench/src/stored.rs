//! The stored cases under cases/: checks.txt, calls.txt, programs.txt, gtswide.txt, texts.txt, values.txt, joins.txt,
//! windows.txt; those from before A8; and those with old files, under cases/old/. Each line is a word and decimal numbers.

pub mod manners;
pub mod old;
mod windows;

pub use windows::{windows, WindowsCase};

use std::iter::Peekable;
use std::path::Path;
use std::str::Lines;

use crate::calls::{Arguments, Call, Engine, Join, Store, Typed, TABLE};
use crate::guarded::Guarded;
use crate::reference::Type;

/// A model, and what its check must answer; and expressions handed beside it.
pub struct CheckCase {
    pub model: Vec<u8>,
    pub want: Result<[u32; 5], u8>,
    pub expressions: Vec<ExpressionCase>,
}

pub struct ExpressionCase {
    pub kinds: Vec<u8>,
    pub parameters: Vec<i32>,
    pub wanted: Type,
    pub want: u8,
}

/// A list of calls: the same for the model and for its shuffled twin.
pub struct ListCase {
    pub model: Vec<u8>,
    pub twin: Vec<u8>,
    pub lent: Lent,
    pub calls: Vec<CallCase>,
}

/// What is lent to a list of calls.
#[derive(Clone, PartialEq, Debug)]
pub struct Lent {
    pub values: Vec<i32>,
    pub marks: Vec<u8>,
    pub history: Vec<u16>,
    pub n: usize,
    pub buffer: Vec<u8>,
}

impl Lent {
    pub fn store(&self) -> Store {
        Store::new(
            &self.values,
            &self.marks,
            &self.history,
            self.n,
            &self.buffer,
        )
    }

    pub fn of(store: &Store) -> Self {
        Lent {
            values: store.values.cells().to_vec(),
            marks: store.marks.cells().to_vec(),
            history: store.history.cells().to_vec(),
            n: store.n.get(),
            buffer: store.buffer.cells().to_vec(),
        }
    }
}

pub struct CallCase {
    pub call: Call,
    pub want: Want,
    /// What is lent afterwards, where it has changed.
    pub after: Option<Lent>,
}

pub enum Want {
    Rounds(usize),
    Done,
    Sizes([u32; 5]),
    Value(i32),
    /// The transition picked, or that there is none.
    Pick(Option<usize>),
    Refused(u8),
}

impl Want {
    /// Whether this answer and these results are the wanted ones.
    pub fn holds(&self, answer: u8, store: &Store) -> bool {
        match self {
            Want::Refused(number) => answer == *number,
            _ if answer != 0 => false,
            Want::Rounds(rounds) => store.rounds.get() == *rounds,
            Want::Done => true,
            Want::Sizes(sizes) => store.sizes.cells() == sizes,
            Want::Value(value) => store.value.get() == *value,
            Want::Pick(Some(lowest)) => store.found.get() == 1 && store.transition.get() == *lowest,
            Want::Pick(None) => store.found.get() == 0,
        }
    }
}

pub struct ProgramCase {
    pub model: Vec<u8>,
    pub input: Vec<u8>,
    pub output: Vec<u8>,
}

/// A run of gtswide.
pub struct WideCase {
    pub input: Vec<u8>,
    pub output: Vec<u8>,
}

/// A model, what is lent to one call beside it, and what must be answered and lie there afterwards.
pub struct LentCase<L> {
    pub model: Vec<u8>,
    pub lent: L,
    pub want: u8,
    pub after: L,
}

/// A text beside a model.
pub type TextCase = LentCase<Typed>;

/// Values beside a model for `first_outside`.
pub type ValuesCase = LentCase<Store>;

/// A join in a model.
pub type JoinCase = LentCase<Join>;

impl<A: Arguments> LentCase<A> {
    /// The answer of an implementation that gets this model, and in words all that is not as stored.
    pub fn perform(&self, engine: &Engine, model: &[u8]) -> (u8, Vec<String>) {
        let mut found = self.lent.clone();
        let answer = found.perform(engine, model);
        let mut wrong = self.after.differences(&found);
        if answer != self.want {
            wrong.push(format!("answer: {} / {answer}", self.want));
        }
        if !found.intact() {
            wrong.push("guard cells were written".to_string());
        }
        (answer, wrong)
    }
}

/// A file of the folder cases/.
pub fn text(name: &str) -> String {
    let path = Path::new(env!("CARGO_MANIFEST_DIR"))
        .join("cases")
        .join(name);
    std::fs::read_to_string(&path).unwrap_or_else(|error| panic!("{}: {error}", path.display()))
}

struct Source<'a> {
    lines: Peekable<Lines<'a>>,
}

impl<'a> Source<'a> {
    fn new(text: &'a str) -> Self {
        Source {
            lines: text.lines().peekable(),
        }
    }

    fn ended(&mut self) -> bool {
        self.lines.peek().is_none()
    }

    /// Whether the next line begins with this word.
    fn sees(&mut self, word: &str) -> bool {
        self.lines
            .peek()
            .is_some_and(|line| line.split(' ').next() == Some(word))
    }

    /// The words of the next line after its first, which is `word`.
    fn words(&mut self, word: &str) -> std::str::Split<'a, char> {
        let line = self.lines.next().expect("a stored case ends too early");
        let mut words = line.split(' ');
        assert_eq!(words.next(), Some(word), "in the stored line: {line}");
        words
    }

    /// A line with a length and that many numbers.
    fn list<T: std::str::FromStr>(&mut self, word: &str) -> Vec<T> {
        let mut words = self.words(word);
        let length: usize = number(words.next());
        let entries: Vec<T> = words.map(|word| number(Some(word))).collect();
        assert_eq!(entries.len(), length, "a stored list has another length");
        entries
    }

    /// A line with a length and what each of so many cells holds.
    fn filled<T: std::str::FromStr + Clone>(&mut self, word: &str) -> Vec<T> {
        let mut words = self.words(word);
        let length = number(words.next());
        vec![number(words.next()); length]
    }

    /// In the files the buffer is called marks, and the run's marks are called held.
    fn lent(&mut self) -> Lent {
        Lent {
            values: self.list("values"),
            history: self.list("record"),
            n: number(self.words("n").next()),
            buffer: self.list("marks"),
            marks: self.list("held"),
        }
    }
}

fn number<T: std::str::FromStr>(word: Option<&str>) -> T {
    word.and_then(|word| word.parse().ok())
        .unwrap_or_else(|| panic!("no number in a stored case: {word:?}"))
}

fn sizes<'a>(words: impl Iterator<Item = &'a str>) -> [u32; 5] {
    let sizes: Vec<u32> = words.map(|word| number(Some(word))).collect();
    sizes.try_into().expect("five sizes")
}

pub fn checks(text: &str) -> Vec<CheckCase> {
    all(text, |source| {
        let model = source.list("model");
        let mut words = source.words("want");
        let want = match words.next() {
            Some("sizes") => Ok(sizes(words)),
            Some("no") => Err(number(words.next())),
            other => panic!("what a check wants: {other:?}"),
        };
        let mut expressions = Vec::new();
        while source.sees("kinds") {
            expressions.push(expression(source));
        }
        CheckCase {
            model,
            want,
            expressions,
        }
    })
}

fn expression(source: &mut Source) -> ExpressionCase {
    let kinds = source.list("kinds");
    let parameters = source.list("params");
    let wanted = match source.words("wanted").next() {
        Some("boolean") => Type::Boolean,
        Some("number") => Type::Number,
        other => panic!("a type: {other:?}"),
    };
    let mut words = source.words("want");
    let want = match words.next() {
        Some("ok") => 0,
        Some("no") => number(words.next()),
        other => panic!("what an expression's check wants: {other:?}"),
    };
    ExpressionCase {
        kinds,
        parameters,
        wanted,
        want,
    }
}

pub fn lists(text: &str) -> Vec<ListCase> {
    let mut source = Source::new(text);
    let mut cases = Vec::new();
    while !source.ended() {
        let model = source.list("model");
        let twin = source.list("twin");
        let lent = source.lent();
        let mut calls = Vec::new();
        while source.sees("call") {
            calls.push(call(&mut source));
        }
        source.words("end");
        cases.push(ListCase {
            model,
            twin,
            lent,
            calls,
        });
    }
    cases
}

fn call(source: &mut Source) -> CallCase {
    let mut words = source.words("call");
    let name = match words.next() {
        Some("back") => "undo",
        Some(name) => name,
        None => panic!("a call without a name"),
    };
    let row = TABLE
        .iter()
        .position(|row| row.name == name)
        .unwrap_or_else(|| panic!("no such call: {name}"));
    let number = words.next().map_or(0, |word| number(Some(word)));
    let want = want(source);
    let after = if source.sees("same") {
        source.words("same");
        None
    } else {
        Some(source.lent())
    };
    CallCase {
        call: Call { row, number },
        want,
        after,
    }
}

/// The one transition that pick answers.
fn picked<'a>(mut words: impl Iterator<Item = &'a str>) -> usize {
    assert_eq!(words.next(), Some("1"), "pick has one right answer");
    number(words.next())
}

fn want(source: &mut Source) -> Want {
    let mut words = source.words("want");
    match words.next() {
        Some("ok") => Want::Rounds(number(words.next())),
        Some("done") => Want::Done,
        Some("sizes") => Want::Sizes(sizes(words)),
        Some("value") => Want::Value(number(words.next())),
        Some("pick") => Want::Pick(Some(picked(words))),
        Some("none") => Want::Pick(None),
        Some("no") => Want::Refused(number(words.next())),
        other => panic!("what a call wants: {other:?}"),
    }
}

/// All cases of a text, one after another.
fn all<C>(text: &str, mut next: impl FnMut(&mut Source) -> C) -> Vec<C> {
    let mut source = Source::new(text);
    let mut cases = Vec::new();
    while !source.ended() {
        cases.push(next(&mut source));
    }
    cases
}

/// All cases of a text in which a model stands before its cases, each of which begins with this word.
fn beside_models<C>(text: &str, word: &str, next: impl Fn(&mut Source, &[u8]) -> C) -> Vec<C> {
    let groups = all(text, |source| {
        let model: Vec<u8> = source.list("model");
        let mut cases = Vec::new();
        while source.sees(word) {
            cases.push(next(source, &model));
        }
        cases
    });
    groups.into_iter().flatten().collect()
}

pub fn programs(text: &str) -> Vec<ProgramCase> {
    all(text, |source| ProgramCase {
        model: source.list("model"),
        input: source.list("input"),
        output: source.list("output"),
    })
}

pub fn wide_runs(text: &str) -> Vec<WideCase> {
    all(text, |source| WideCase {
        input: source.list("input"),
        output: source.list("output"),
    })
}

pub fn texts(text: &str) -> Vec<TextCase> {
    beside_models(text, "text", text_case)
}

fn text_case(source: &mut Source, model: &[u8]) -> TextCase {
    /// What the count's cell holds before the call.
    const COUNT: usize = 9_999;
    let text = source.list("text");
    let kinds: Vec<u8> = source.filled("outkinds");
    let parameters: Vec<i32> = source.filled("outparams");
    let lent = Typed::new(&text, &kinds, &parameters, COUNT);
    let mut after = lent.clone();
    let mut words = source.words("want");
    let want = match words.next() {
        Some("nodes") => {
            let count: usize = number(words.next());
            *after.count.get_mut() = count;
            after.kinds.cells_mut()[..count].copy_from_slice(&source.list("kinds"));
            after.parameters.cells_mut()[..count].copy_from_slice(&source.list("params"));
            0
        }
        Some("no") => number(words.next()),
        other => panic!("what a text wants: {other:?}"),
    };
    TextCase {
        model: model.to_vec(),
        lent,
        want,
        after,
    }
}

pub fn values(text: &str) -> Vec<ValuesCase> {
    beside_models(text, "values", values_case)
}

fn values_case(source: &mut Source, model: &[u8]) -> ValuesCase {
    let values = source.list("values");
    // Before the call the results hold what no call gives.
    let lent = Store {
        variable: Guarded::new(&[9_999]),
        found: Guarded::new(&[99]),
        looked: Guarded::new(&[9_999]),
        ..Store::new(&values, &[], &[], 0, &[])
    };
    let mut after = lent.clone();
    let mut words = source.words("want");
    let want = match words.next() {
        Some("outside") => {
            *after.variable.get_mut() = number(words.next());
            *after.found.get_mut() = 1;
            *after.looked.get_mut() = number(words.next());
            0
        }
        Some("within") => {
            *after.found.get_mut() = 0;
            *after.looked.get_mut() = number(words.next());
            0
        }
        Some("no") => number(words.next()),
        other => panic!("what values want: {other:?}"),
    };
    ValuesCase {
        model: model.to_vec(),
        lent,
        want,
        after,
    }
}

pub fn joins(text: &str) -> Vec<JoinCase> {
    beside_models(text, "mandatory", join_case)
}

fn join_case(source: &mut Source, model: &[u8]) -> JoinCase {
    /// What the length's cell holds before the call.
    const LENGTH: usize = 99_999;
    let mandatory = source.list("mandatory");
    let optional = source.list("optional");
    let out: Vec<u8> = source.filled("out");
    let lent = Join::new(&mandatory, &optional, &out, LENGTH);
    let mut after = lent.clone();
    let mut words = source.words("want");
    let want = match words.next() {
        Some("length") => {
            let length: usize = number(words.next());
            *after.length.get_mut() = length;
            after.out.cells_mut()[..length].copy_from_slice(&source.list("cells"));
            0
        }
        Some("no") => number(words.next()),
        other => panic!("what a join wants: {other:?}"),
    };
    JoinCase {
        model: model.to_vec(),
        lent,
        want,
        after,
    }
}
