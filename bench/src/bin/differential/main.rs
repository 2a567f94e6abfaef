//! Compares the library with the reference implementation, call by call.
//!
//!     differential [CALLS [SEED]]
//!
//! CALLS are those on runs; each random model gets some texts, some joins and some logs beside them, and an old file is
//! rewritten.
//! Each case has its own seed, counted up from SEED: a difference is met again by `differential 1 SEED` with the
//! seed that is printed for it.

mod joins;
mod rewritings;
mod stored_cases;
mod tally;
mod windows;

use std::process::ExitCode;

use bench::calls::{Arguments, Call, Store};
use bench::ffi::LIBRARY;
use bench::guarded::Guarded;
use bench::limits;
use bench::model_gen;
use bench::random::Random;
use bench::reference::ENGINE;
use bench::tree::Model;

use tally::{Tally, TEXT, WINDOWS};

/// The texts of a random model.
const TEXTS: usize = 3;

fn main() -> ExitCode {
    let mut arguments = std::env::args()
        .skip(1)
        .map(|word| word.parse::<u64>().expect("a number"));
    let wanted = arguments.next().unwrap_or(300_000) as usize;
    let first = arguments.next().unwrap_or(1);

    let mut tally = Tally::new();
    stored_cases::compare(&mut tally);
    models_at_limits(&mut tally);
    let mut seed = first;
    let mut on_runs = 0;
    while on_runs < wanted {
        on_runs += random_case(&mut tally, seed);
        seed += 1;
    }
    println!("seeds {first} to {}\n", seed - 1);
    tally.print();
    println!("\n{} calls, {} differ", tally.calls, tally.differ);
    if tally.differ == 0 {
        ExitCode::SUCCESS
    } else {
        ExitCode::FAILURE
    }
}

/// The models at the limits of a file, each with its twin, texts, logs and joins.
fn models_at_limits(tally: &mut Tally) {
    let mut random = Random::new(0);
    for case in limits::all() {
        let file = case.model.encode();
        let twin = case.model.shuffled(&mut random).encode();
        for given in [&file, &twin] {
            let mut pair = Pair::new(&file, given, &case.store);
            pair.follow(tally, case.name, &case.calls);
            for typed in case.texts() {
                compare(tally, TEXT, case.name, [&file, given], &typed);
            }
            for log in case.logs() {
                compare(tally, WINDOWS, case.name, [&file, given], &log);
            }
        }
        joins::compare_at_limit(tally, &case);
    }
}

/// One random model with its twin, or one damaged file, with one list of calls, some texts, some joins and some logs, and
/// an old file of another model; gives how many calls of the list were made.
fn random_case(tally: &mut Tally, seed: u64) -> usize {
    let mut random = Random::new(seed.wrapping_mul(0x9E37_79B9_7F4A_7C15));
    let case = Case::new(&mut random, seed);
    let calls = case.compare_list(tally, &mut random);
    case.compare_texts(tally, &mut random);
    joins::compare(tally, &mut random, &case);
    rewritings::compare(tally, &mut random, &case.name);
    windows::compare(tally, &mut random, &case);
    calls
}

/// A random model.
struct Case {
    name: String,
    model: Model,
    /// The model's file, or a damaged one, or the old file.
    file: Vec<u8>,
    /// None beside a damaged file and an old one.
    twin: Option<Vec<u8>>,
}

impl Case {
    fn new(random: &mut Random, seed: u64) -> Self {
        let shape = model_gen::shape(random);
        let model = model_gen::model(random, shape);
        let mut file = model.encode();
        let twin = if random.chance(1, 3) {
            file = match model.encode_old() {
                Some(old) if random.chance(1, 12) => old,
                _ => model_gen::damaged(random, &file),
            };
            None
        } else {
            Some(model.shuffled(random).encode())
        };
        Case {
            name: format!("seed {seed}, {shape:?}"),
            model,
            file,
            twin,
        }
    }

    /// What the library is given: the file, and the twin if there is one.
    fn given(&self) -> impl Iterator<Item = (&'static str, &[u8])> {
        let twin = self.twin.iter().map(|twin| ("twin", &twin[..]));
        [("model", &self.file[..])].into_iter().chain(twin)
    }

    fn compare_list(&self, tally: &mut Tally, random: &mut Random) -> usize {
        let calls = model_gen::calls(random, &self.model);
        let store = model_gen::store(random, &self.model);
        self.given()
            .map(|(name, given)| {
                let mut pair = Pair::new(&self.file, given, &store);
                pair.follow(tally, &format!("{} {name}", self.name), &calls)
            })
            .sum()
    }

    fn compare_texts(&self, tally: &mut Tally, random: &mut Random) {
        for _ in 0..TEXTS {
            let typed = model_gen::typed(random, &self.model);
            for (name, given) in self.given() {
                let text = typed.text.cells().escape_ascii();
                let name = format!("{} {name}, text {text}", self.name);
                compare(tally, TEXT, &name, [&self.file, given], &typed);
            }
        }
    }
}

/// The same list of calls twice: on the library with a model or its twin, and on the Rust implementation with the model.
struct Pair<'a> {
    model: &'a [u8],
    given: &'a [u8],
    lent: Guarded<u8>,
    expected: Store,
    found: Store,
}

impl<'a> Pair<'a> {
    fn new(model: &'a [u8], given: &'a [u8], store: &Store) -> Self {
        Pair {
            model,
            given,
            lent: Guarded::new(given),
            expected: store.clone(),
            found: store.clone(),
        }
    }

    /// The library's answer to a call, and all that differs afterwards.
    fn perform(&mut self, call: Call) -> (u8, Vec<String>) {
        let wanted = call.perform(&ENGINE, self.model, &mut self.expected);
        let answer = call.perform(&LIBRARY, self.lent.cells(), &mut self.found);
        let mut wrong = self.expected.differences(&self.found);
        if wanted != answer {
            wrong.push(format!("answer: {wanted} / {answer}"));
        }
        if !self.found.intact() || !self.lent.intact() {
            wrong.push("guard cells were written".to_string());
        }
        if self.lent.cells() != self.given {
            wrong.push("the model was written".to_string());
        }
        (answer, wrong)
    }

    /// A list of calls, up to the first that differs; gives how many were made.
    fn follow(&mut self, tally: &mut Tally, name: &str, calls: &[Call]) -> usize {
        for (place, &call) in calls.iter().enumerate() {
            let (answer, wrong) = self.perform(call);
            tally.count_call(call.row, answer, &self.found);
            let what = format!("{name}, {} {}", call.name(), call.number);
            tally.report(&what, &wrong);
            if !wrong.is_empty() {
                return place + 1;
            }
        }
        calls.len()
    }
}

/// A call of the library with the file that is given to it, compared with what the Rust implementation gives with the
/// model; gives the library's answer and what was lent to it.
fn compare<A: Arguments>(
    tally: &mut Tally,
    column: usize,
    name: &str,
    [model, given]: [&[u8]; 2],
    lent: &A,
) -> (u8, A) {
    let (mut expected, mut found) = (lent.clone(), lent.clone());
    let file = Guarded::new(given);
    let wanted = expected.perform(&ENGINE, model);
    let answer = found.perform(&LIBRARY, file.cells());
    tally.count(column, answer);
    let mut wrong = expected.differences(&found);
    if wanted != answer {
        wrong.push(format!("answer: {wanted} / {answer}"));
    }
    if !found.intact() || file != Guarded::new(given) {
        wrong.push("guard cells or the file were written".to_string());
    }
    tally.report(name, &wrong);
    (answer, found)
}
