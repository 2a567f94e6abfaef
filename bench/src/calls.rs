//! The calls on a run as one table, over one set of all that is lent; and the calls on a text, on two lists of members,
//! on an old file and on the rows of a log.

use std::fmt::Debug;

use crate::guarded::{Cell, Guarded};
use crate::tree::Node;

/// An implementation: the twelve C calls with slices for pointers and lengths. Each answers 0 and its results, or
/// a refusal number and leaves everything lent as it was.
pub struct Engine {
    pub name: &'static str,
    pub check: fn(model: &[u8], sizes: &mut [u32]) -> u8,
    pub start: Start,
    pub fire: Fire,
    pub undo: Undo,
    pub marks: Marks,
    pub value: Value,
    pub pick: Pick,
    pub first_outside: FirstOutside,
    pub text: Text,
    pub synchronise: Synchronise,
    pub rewrite: Rewrite,
    pub windows: Windows,
}

pub type Start =
    fn(model: &[u8], values: &mut [i32], marks: &mut [u8], n: &mut usize, rounds: &mut usize) -> u8;

pub type Fire = fn(
    model: &[u8],
    values: &mut [i32],
    marks: &mut [u8],
    history: &mut [u16],
    n: &mut usize,
    transition: usize,
    rounds: &mut usize,
) -> u8;

pub type Undo =
    fn(model: &[u8], values: &mut [i32], marks: &mut [u8], history: &[u16], n: &mut usize) -> u8;

pub type Marks = fn(
    model: &[u8],
    values: &[i32],
    marks: &[u8],
    history: &[u16],
    n: usize,
    buffer: &mut [u8],
) -> u8;

pub type Value = fn(
    model: &[u8],
    values: &[i32],
    marks: &[u8],
    history: &[u16],
    n: usize,
    variable: usize,
    value: &mut i32,
) -> u8;

pub type Pick = fn(
    model: &[u8],
    values: &[i32],
    marks: &[u8],
    history: &[u16],
    n: usize,
    transition: &mut usize,
    found: &mut u8,
) -> u8;

pub type FirstOutside = fn(
    model: &[u8],
    values: &[i32],
    variable: &mut usize,
    found: &mut u8,
    looked: &mut usize,
) -> u8;

pub type Text = fn(
    model: &[u8],
    text: &[u8],
    kinds: &mut [u8],
    parameters: &mut [i32],
    count: &mut usize,
) -> u8;

pub type Synchronise = fn(
    model: &[u8],
    mandatory: &[usize],
    optional: &[usize],
    out: &mut [u8],
    length: &mut usize,
) -> u8;

pub type Rewrite = fn(old: &[u8], out: &mut [u8], length: &mut usize) -> u8;

pub type Windows = fn(
    model: &[u8],
    condition: Nodes,
    number: Nodes,
    window: usize,
    rows: &[i32],
    figures: &mut [i32],
    count: &mut usize,
) -> u8;

/// An expression that is handed beside a model.
#[derive(Clone, Copy)]
pub struct Nodes<'a> {
    pub kinds: &'a [u8],
    pub parameters: &'a [i32],
}

/// All that is lent to the calls on a run beside the model, results included, each between guard cells.
#[derive(Clone, PartialEq)]
pub struct Store {
    pub values: Guarded<i32>,
    /// Those that the run holds.
    pub marks: Guarded<u8>,
    pub history: Guarded<u16>,
    pub n: Guarded<usize>,
    /// What the marks call copies them to.
    pub buffer: Guarded<u8>,
    pub sizes: Guarded<u32>,
    pub rounds: Guarded<usize>,
    pub value: Guarded<i32>,
    pub transition: Guarded<usize>,
    pub variable: Guarded<usize>,
    /// Whether there is such a transition, or such a variable.
    pub found: Guarded<u8>,
    pub looked: Guarded<usize>,
}

impl Store {
    /// A store whose results are still as given here.
    pub fn new(values: &[i32], marks: &[u8], history: &[u16], n: usize, buffer: &[u8]) -> Self {
        Store {
            values: Guarded::new(values),
            marks: Guarded::new(marks),
            history: Guarded::new(history),
            n: Guarded::new(&[n]),
            buffer: Guarded::new(buffer),
            sizes: Guarded::new(&[0; 5]),
            rounds: Guarded::new(&[0]),
            value: Guarded::new(&[0]),
            transition: Guarded::new(&[0]),
            variable: Guarded::new(&[0]),
            found: Guarded::new(&[0]),
            looked: Guarded::new(&[0]),
        }
    }

    pub fn intact(&self) -> bool {
        self.values.intact()
            && self.marks.intact()
            && self.history.intact()
            && self.n.intact()
            && self.buffer.intact()
            && self.sizes.intact()
            && self.rounds.intact()
            && self.value.intact()
            && self.transition.intact()
            && self.variable.intact()
            && self.found.intact()
            && self.looked.intact()
    }

    /// The parts in which two stores differ, in words.
    pub fn differences(&self, other: &Store) -> Vec<String> {
        [
            part("values", &self.values, &other.values),
            part("marks", &self.marks, &other.marks),
            part("history", &self.history, &other.history),
            part("n", &self.n, &other.n),
            part("buffer", &self.buffer, &other.buffer),
            part("sizes", &self.sizes, &other.sizes),
            part("rounds", &self.rounds, &other.rounds),
            part("value", &self.value, &other.value),
            part("transition", &self.transition, &other.transition),
            part("variable", &self.variable, &other.variable),
            part("found", &self.found, &other.found),
            part("looked", &self.looked, &other.looked),
        ]
        .into_iter()
        .flatten()
        .collect()
    }
}

/// The two contents of a part, where they differ.
fn part<T: Cell + Debug>(name: &str, one: &Guarded<T>, two: &Guarded<T>) -> Option<String> {
    (one != two).then(|| format!("{name}: {:?} / {:?}", one.cells(), two.cells()))
}

/// The first cell in which a long part differs.
fn first_cell<T: Cell + Debug>(name: &str, one: &Guarded<T>, two: &Guarded<T>) -> Option<String> {
    let mut pairs = one.cells().iter().zip(two.cells()).enumerate();
    let (place, (one, two)) = pairs.find(|(_, (one, two))| one != two)?;
    Some(format!("{name}: cell {place} is {one:?} / {two:?}"))
}

/// All that is lent to a call that is not on a run, beside the model or the old file, results included, each between guard cells.
pub trait Arguments: Clone {
    fn perform(&mut self, engine: &Engine, model: &[u8]) -> u8;

    fn intact(&self) -> bool;

    /// The parts in which two of them differ, in words.
    fn differences(&self, other: &Self) -> Vec<String>;
}

/// All that is lent to the call on a text.
#[derive(Clone, PartialEq)]
pub struct Typed {
    pub text: Guarded<u8>,
    pub kinds: Guarded<u8>,
    pub parameters: Guarded<i32>,
    pub count: Guarded<usize>,
}

impl Typed {
    pub fn new(text: &[u8], kinds: &[u8], parameters: &[i32], count: usize) -> Self {
        Typed {
            text: Guarded::new(text),
            kinds: Guarded::new(kinds),
            parameters: Guarded::new(parameters),
            count: Guarded::new(&[count]),
        }
    }
}

impl Arguments for Typed {
    fn perform(&mut self, engine: &Engine, model: &[u8]) -> u8 {
        (engine.text)(
            model,
            self.text.cells(),
            self.kinds.cells_mut(),
            self.parameters.cells_mut(),
            self.count.get_mut(),
        )
    }

    fn intact(&self) -> bool {
        self.text.intact() && self.kinds.intact() && self.parameters.intact() && self.count.intact()
    }

    fn differences(&self, other: &Typed) -> Vec<String> {
        [
            part("text", &self.text, &other.text),
            part("kinds", &self.kinds, &other.kinds),
            part("parameters", &self.parameters, &other.parameters),
            part("count", &self.count, &other.count),
        ]
        .into_iter()
        .flatten()
        .collect()
    }
}

/// All that is lent to a join, which is a call of `synchronise`.
#[derive(Clone, PartialEq)]
pub struct Join {
    pub mandatory: Guarded<usize>,
    pub optional: Guarded<usize>,
    /// What the new model is written to.
    pub out: Guarded<u8>,
    pub length: Guarded<usize>,
}

impl Join {
    pub fn new(mandatory: &[usize], optional: &[usize], out: &[u8], length: usize) -> Self {
        Join {
            mandatory: Guarded::new(mandatory),
            optional: Guarded::new(optional),
            out: Guarded::new(out),
            length: Guarded::new(&[length]),
        }
    }

    /// The new model, after a join that was accepted.
    pub fn written(&self) -> &[u8] {
        let cells = self.out.cells();
        &cells[..self.length.get().min(cells.len())]
    }
}

impl Arguments for Join {
    fn perform(&mut self, engine: &Engine, model: &[u8]) -> u8 {
        (engine.synchronise)(
            model,
            self.mandatory.cells(),
            self.optional.cells(),
            self.out.cells_mut(),
            self.length.get_mut(),
        )
    }

    fn intact(&self) -> bool {
        self.mandatory.intact()
            && self.optional.intact()
            && self.out.intact()
            && self.length.intact()
    }

    fn differences(&self, other: &Join) -> Vec<String> {
        [
            first_cell("mandatory", &self.mandatory, &other.mandatory),
            first_cell("optional", &self.optional, &other.optional),
            first_cell("out", &self.out, &other.out),
            part("length", &self.length, &other.length),
        ]
        .into_iter()
        .flatten()
        .collect()
    }
}

/// All that is lent to a rewriting beside the old file.
#[derive(Clone, PartialEq)]
pub struct Rewriting {
    /// What the file is written to in the new layout.
    pub out: Guarded<u8>,
    pub length: Guarded<usize>,
}

impl Rewriting {
    pub fn new(out: &[u8], length: usize) -> Self {
        Rewriting {
            out: Guarded::new(out),
            length: Guarded::new(&[length]),
        }
    }

    /// The rewritten file, after a rewriting that was accepted.
    pub fn written(&self) -> &[u8] {
        let cells = self.out.cells();
        &cells[..self.length.get().min(cells.len())]
    }
}

impl Arguments for Rewriting {
    fn perform(&mut self, engine: &Engine, old: &[u8]) -> u8 {
        (engine.rewrite)(old, self.out.cells_mut(), self.length.get_mut())
    }

    fn intact(&self) -> bool {
        self.out.intact() && self.length.intact()
    }

    fn differences(&self, other: &Rewriting) -> Vec<String> {
        [
            first_cell("out", &self.out, &other.out),
            part("length", &self.length, &other.length),
        ]
        .into_iter()
        .flatten()
        .collect()
    }
}

/// An expression that is handed beside a model, between guard cells.
#[derive(Clone, PartialEq)]
pub struct Handed {
    pub kinds: Guarded<u8>,
    pub parameters: Guarded<i32>,
}

impl Handed {
    pub fn new(kinds: &[u8], parameters: &[i32]) -> Self {
        Handed {
            kinds: Guarded::new(kinds),
            parameters: Guarded::new(parameters),
        }
    }

    pub fn of(nodes: &[Node]) -> Self {
        let (kinds, parameters): (Vec<u8>, Vec<i32>) = nodes.iter().copied().unzip();
        Handed::new(&kinds, &parameters)
    }

    pub fn nodes(&self) -> Nodes<'_> {
        Nodes {
            kinds: self.kinds.cells(),
            parameters: self.parameters.cells(),
        }
    }

    fn intact(&self) -> bool {
        self.kinds.intact() && self.parameters.intact()
    }
}

/// All that is lent to a call on the rows of a log, and the window.
#[derive(Clone, PartialEq)]
pub struct Log {
    /// The Boolean expression.
    pub condition: Handed,
    /// The number expression.
    pub number: Handed,
    pub window: usize,
    pub rows: Guarded<i32>,
    /// What the figures are written to, three cells for each row.
    pub figures: Guarded<i32>,
    /// How many rows there are.
    pub count: Guarded<usize>,
}

impl Log {
    pub fn new(
        [condition, number]: [Handed; 2],
        window: usize,
        rows: &[i32],
        figures: &[i32],
        count: usize,
    ) -> Self {
        Log {
            condition,
            number,
            window,
            rows: Guarded::new(rows),
            figures: Guarded::new(figures),
            count: Guarded::new(&[count]),
        }
    }
}

impl Arguments for Log {
    fn perform(&mut self, engine: &Engine, model: &[u8]) -> u8 {
        (engine.windows)(
            model,
            self.condition.nodes(),
            self.number.nodes(),
            self.window,
            self.rows.cells(),
            self.figures.cells_mut(),
            self.count.get_mut(),
        )
    }

    fn intact(&self) -> bool {
        self.condition.intact()
            && self.number.intact()
            && self.rows.intact()
            && self.figures.intact()
            && self.count.intact()
    }

    fn differences(&self, other: &Log) -> Vec<String> {
        let expressions = [
            ("condition", &self.condition, &other.condition),
            ("number", &self.number, &other.number),
        ];
        let nodes = expressions.into_iter().flat_map(|(name, one, two)| {
            [
                first_cell(&format!("{name}, kinds"), &one.kinds, &two.kinds),
                first_cell(
                    &format!("{name}, parameters"),
                    &one.parameters,
                    &two.parameters,
                ),
            ]
        });
        let others = [
            first_cell("rows", &self.rows, &other.rows),
            first_cell("figures", &self.figures, &other.figures),
            part("count", &self.count, &other.count),
        ];
        nodes.chain(others).flatten().collect()
    }
}

/// The number that a call takes beside what is lent.
#[derive(Clone, Copy, Debug, PartialEq, Eq)]
pub enum Number {
    None,
    Transition,
    Variable,
}

/// A row of the table of calls.
pub struct Row {
    pub name: &'static str,
    pub number: Number,
    pub perform: fn(engine: &Engine, model: &[u8], store: &mut Store, number: usize) -> u8,
}

/// The rows' places in the table.
pub const CHECK: usize = 0;
pub const START: usize = 1;
pub const FIRE: usize = 2;
pub const UNDO: usize = 3;
pub const MARKS: usize = 4;
pub const VALUE: usize = 5;
pub const PICK: usize = 6;
pub const FIRST_OUTSIDE: usize = 7;

pub const TABLE: [Row; 8] = [
    Row {
        name: "check",
        number: Number::None,
        perform: |engine, model, s, _| (engine.check)(model, s.sizes.cells_mut()),
    },
    Row {
        name: "start",
        number: Number::None,
        perform: |engine, model, s, _| {
            (engine.start)(
                model,
                s.values.cells_mut(),
                s.marks.cells_mut(),
                s.n.get_mut(),
                s.rounds.get_mut(),
            )
        },
    },
    Row {
        name: "fire",
        number: Number::Transition,
        perform: |engine, model, s, transition| {
            (engine.fire)(
                model,
                s.values.cells_mut(),
                s.marks.cells_mut(),
                s.history.cells_mut(),
                s.n.get_mut(),
                transition,
                s.rounds.get_mut(),
            )
        },
    },
    Row {
        name: "undo",
        number: Number::None,
        perform: |engine, model, s, _| {
            (engine.undo)(
                model,
                s.values.cells_mut(),
                s.marks.cells_mut(),
                s.history.cells(),
                s.n.get_mut(),
            )
        },
    },
    Row {
        name: "marks",
        number: Number::None,
        perform: |engine, model, s, _| {
            (engine.marks)(
                model,
                s.values.cells(),
                s.marks.cells(),
                s.history.cells(),
                s.n.get(),
                s.buffer.cells_mut(),
            )
        },
    },
    Row {
        name: "value",
        number: Number::Variable,
        perform: |engine, model, s, variable| {
            (engine.value)(
                model,
                s.values.cells(),
                s.marks.cells(),
                s.history.cells(),
                s.n.get(),
                variable,
                s.value.get_mut(),
            )
        },
    },
    Row {
        name: "pick",
        number: Number::None,
        perform: |engine, model, s, _| {
            (engine.pick)(
                model,
                s.values.cells(),
                s.marks.cells(),
                s.history.cells(),
                s.n.get(),
                s.transition.get_mut(),
                s.found.get_mut(),
            )
        },
    },
    Row {
        name: "first_outside",
        number: Number::None,
        perform: |engine, model, s, _| {
            (engine.first_outside)(
                model,
                s.values.cells(),
                s.variable.get_mut(),
                s.found.get_mut(),
                s.looked.get_mut(),
            )
        },
    },
];

/// One call of a list: a row of the table and its number.
#[derive(Clone, Copy, Debug, PartialEq, Eq)]
pub struct Call {
    pub row: usize,
    pub number: usize,
}

impl Call {
    pub fn perform(self, engine: &Engine, model: &[u8], store: &mut Store) -> u8 {
        (TABLE[self.row].perform)(engine, model, store, self.number)
    }

    pub fn name(self) -> &'static str {
        TABLE[self.row].name
    }
}
