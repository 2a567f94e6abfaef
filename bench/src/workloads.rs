//! The models and call sequences that are timed.

mod chains;
mod joins;
mod nests;
mod windows;

pub use chains::{chain, chain_in_order, flows_alone, known_at_once, one_condition, undecided};
pub use joins::deep_joins;
pub use nests::{deep_runs, sized_readings, Size};
pub use windows::{deep_windows, windows};

use crate::calls::{Engine, Log};
use crate::reference;
use crate::tree::{Expr, Instr, Model, Operator, Transition, Variable};

/// The stored example of a counter.
pub const COUNTER: &[u8] = include_bytes!("../../examples/counter/model.gts");

/// Transitions of the counter that can be fired again and again: three articles scanned, then sold.
pub const COUNTER_STEPS: [usize; 4] = [0, 0, 0, 13];

/// Guards typed for the counter.
pub const GUARDS: [&str; 6] = [
    "v1 and v0 > 0 and v7",
    "not v1 and v0 > 0 and v3 and v6",
    "v8 and v0 < 4 and (v1 or v2 + v12 <= 6)",
    "v4 and v10 and v9 and not v13 and v2 - v12 != 1",
    "if v11 then v12 == 0 else v2 >= 3 and (v3 or v4) and v6",
    "(if v1 then v0 + 1 else 4) * 2 - mod(v2 + 3 * v12, 5) >= div(v2 + v12, 2) + 1 or v5 == v6 and not (v8 != v9)",
];

/// The steps of a long run.
pub const STEPS: usize = 200;

/// Some calls on one model; both implementations get the same.
pub struct Workload {
    pub name: String,
    pub model: Vec<u8>,
    pub work: Work,
}

pub enum Work {
    Check,
    Start,
    /// Start, and then so many fires, taking these transitions in turn.
    Run(Vec<usize>, usize),
    /// Take back the last step of a run of so many steps.
    Undo(Vec<usize>, usize),
    Marks,
    /// The value of this variable.
    Value(usize),
    Pick,
    /// All values are within their ends, or that of this variable alone is not.
    FirstOutside(Option<usize>),
    /// Each text once, accepted or not.
    Text(Vec<String>),
    /// The model with these mandatory and these optional transitions joined.
    Synchronise(Vec<usize>, Vec<usize>),
    /// The model's old file in the new layout.
    Rewrite(Vec<u8>),
    /// The figures of each row.
    Windows(Log),
}

/// A workload with its buffers, to be carried out many times.
pub struct Prepared<'w> {
    workload: &'w Workload,
    /// The run that undo, marks, pick and first_outside start from.
    run: Run,
    /// What a text's nodes are written to.
    kinds: Vec<u8>,
    parameters: Vec<i32>,
    /// What a new model, or a rewritten one, is written to.
    out: Vec<u8>,
    /// What the figures of a log's rows are written to.
    figures: Vec<i32>,
}

#[derive(Clone)]
struct Run {
    values: Vec<i32>,
    marks: Vec<u8>,
    history: Vec<u16>,
    n: usize,
    /// What the marks call copies the marks to.
    buffer: Vec<u8>,
}

impl Run {
    /// Start and fires; gives the sum of the round counts.
    fn perform(&mut self, engine: &Engine, model: &[u8], steps: &[usize], count: usize) -> usize {
        let mut rounds = 0;
        let answer = (engine.start)(
            model,
            &mut self.values,
            &mut self.marks,
            &mut self.n,
            &mut rounds,
        );
        assert_eq!(answer, 0, "{} refuses a start", engine.name);
        let mut sum = rounds;
        for &step in steps.iter().cycle().take(count) {
            let answer = (engine.fire)(
                model,
                &mut self.values,
                &mut self.marks,
                &mut self.history,
                &mut self.n,
                step,
                &mut rounds,
            );
            assert_eq!(answer, 0, "{} refuses a fire", engine.name);
            sum += rounds;
        }
        sum
    }

    /// Takes the last step back; gives the sum of the values.
    fn undo(&mut self, engine: &Engine, model: &[u8]) -> u64 {
        let n = self.n;
        let answer = (engine.undo)(
            model,
            &mut self.values,
            &mut self.marks,
            &self.history,
            &mut self.n,
        );
        assert_eq!((answer, self.n), (0, n - 1));
        // The history still holds the step: the run's length is all that must be put back.
        self.n = n;
        sum(&self.values)
    }

    /// The sum of the marks.
    fn marks(&mut self, engine: &Engine, model: &[u8]) -> u64 {
        let buffer = &mut self.buffer;
        let answer = (engine.marks)(
            model,
            &self.values,
            &self.marks,
            &self.history,
            self.n,
            buffer,
        );
        assert_eq!(answer, 0);
        buffer.iter().map(|&mark| u64::from(mark)).sum()
    }

    /// The value of this variable.
    fn value(&self, engine: &Engine, model: &[u8], variable: usize) -> u64 {
        let mut value = 0;
        let answer = (engine.value)(
            model,
            &self.values,
            &self.marks,
            &self.history,
            self.n,
            variable,
            &mut value,
        );
        assert_eq!(answer, 0);
        value as u64
    }

    /// The transition picked.
    fn pick(&self, engine: &Engine, model: &[u8]) -> u64 {
        let (mut transition, mut found) = (0, 0);
        let answer = (engine.pick)(
            model,
            &self.values,
            &self.marks,
            &self.history,
            self.n,
            &mut transition,
            &mut found,
        );
        assert_eq!((answer, found), (0, 1));
        transition as u64
    }

    /// How many values were looked at; the variable found must be this one, or none.
    fn first_outside(&self, engine: &Engine, model: &[u8], outside: Option<usize>) -> u64 {
        let (mut variable, mut found, mut looked) = (0, 9, 0);
        let answer =
            (engine.first_outside)(model, &self.values, &mut variable, &mut found, &mut looked);
        assert_eq!((answer, found), (0, u8::from(outside.is_some())));
        assert_eq!((found == 1).then_some(variable), outside);
        looked as u64
    }
}

impl Workload {
    fn new(name: impl Into<String>, model: Vec<u8>, work: Work) -> Self {
        Workload {
            name: name.into(),
            model,
            work,
        }
    }

    pub fn prepare(&self) -> Prepared<'_> {
        let sizes = reference::check(&self.model).expect("a well-formed model");
        let mut run = Run {
            values: vec![0; sizes.variables()],
            marks: vec![0; sizes.transitions],
            history: vec![0; STEPS],
            n: 0,
            buffer: vec![0; sizes.transitions],
        };
        let (steps, count) = match &self.work {
            Work::Undo(steps, count) => (&steps[..], *count),
            _ => (&[][..], 0),
        };
        run.perform(&reference::ENGINE, &self.model, steps, count);
        if let Work::FirstOutside(Some(variable)) = self.work {
            // The variable is a Boolean.
            run.values[variable] = 2;
        }
        let cells = match &self.work {
            Work::Windows(log) => 3 * (log.rows.cells().len() / sizes.variables()),
            _ => 0,
        };
        Prepared {
            workload: self,
            run,
            kinds: vec![0; 400],
            parameters: vec![0; 400],
            out: vec![0; 60_010],
            figures: vec![0; cells],
        }
    }
}

impl Prepared<'_> {
    /// Carries the workload out once; gives a sum over the results, the same for every implementation.
    pub fn perform(&mut self, engine: &Engine) -> u64 {
        let Workload { model, work, .. } = self.workload;
        let run = &mut self.run;
        match work {
            Work::Check => check(engine, model),
            Work::Start => run.perform(engine, model, &[], 0) as u64,
            Work::Run(steps, count) => {
                let rounds = run.perform(engine, model, steps, *count) as u64;
                rounds + sum(&run.values)
            }
            Work::Undo(..) => run.undo(engine, model),
            Work::Marks => run.marks(engine, model),
            Work::Value(variable) => run.value(engine, model, *variable),
            Work::Pick => run.pick(engine, model),
            Work::FirstOutside(outside) => run.first_outside(engine, model, *outside),
            Work::Text(texts) => self.write_nodes(engine, model, texts),
            Work::Synchronise(mandatory, optional) => {
                self.synchronise(engine, model, mandatory, optional)
            }
            Work::Rewrite(old) => self.rewrite(engine, old),
            Work::Windows(log) => self.windows(engine, model, log),
        }
    }

    /// The length and the first cells of the new model, which are its sizes, summed.
    fn synchronise(
        &mut self,
        engine: &Engine,
        model: &[u8],
        mandatory: &[usize],
        optional: &[usize],
    ) -> u64 {
        let mut length = 0;
        let answer = (engine.synchronise)(model, mandatory, optional, &mut self.out, &mut length);
        assert_eq!(answer, 0, "{} refuses a join", engine.name);
        length as u64 + self.written_sizes()
    }

    /// The same of the rewritten file.
    fn rewrite(&mut self, engine: &Engine, old: &[u8]) -> u64 {
        let mut length = 0;
        let answer = (engine.rewrite)(old, &mut self.out, &mut length);
        assert_eq!(answer, 0, "{} refuses an old file", engine.name);
        length as u64 + self.written_sizes()
    }

    /// The figures and the number of rows, summed.
    fn windows(&mut self, engine: &Engine, model: &[u8], log: &Log) -> u64 {
        let mut count = 0;
        let answer = (engine.windows)(
            model,
            log.condition.nodes(),
            log.number.nodes(),
            log.window,
            log.rows.cells(),
            &mut self.figures,
            &mut count,
        );
        assert_eq!(answer, 0, "{} refuses a log", engine.name);
        sum(&self.figures).wrapping_add(count as u64)
    }

    fn written_sizes(&self) -> u64 {
        self.out[..10].iter().map(|&size| u64::from(size)).sum()
    }

    /// Each text's answer and nodes, summed.
    fn write_nodes(&mut self, engine: &Engine, model: &[u8], texts: &[String]) -> u64 {
        let (kinds, parameters) = (&mut self.kinds, &mut self.parameters);
        let mut total = 0;
        for text in texts {
            let mut count = 0;
            let answer = (engine.text)(model, text.as_bytes(), kinds, parameters, &mut count);
            let kinds = kinds[..count].iter().map(|&kind| u64::from(kind));
            total += u64::from(answer) + kinds.sum::<u64>();
            total = total.wrapping_add(sum(&parameters[..count]));
        }
        total
    }
}

/// The sum of the sizes.
fn check(engine: &Engine, model: &[u8]) -> u64 {
    let mut sizes = [0; 5];
    assert_eq!((engine.check)(model, &mut sizes), 0);
    sizes.iter().map(|&size| u64::from(size)).sum()
}

fn sum(values: &[i32]) -> u64 {
    values
        .iter()
        .fold(0, |sum: u64, &value| sum.wrapping_add(value as u64))
}

/// The workloads of the ratio table.
pub fn all() -> Vec<Workload> {
    let deep = Workload::new(
        "deep inactive branches, 4,000 nodes, start and 200 fires",
        inactive(4_000).encode(),
        Work::Run(vec![0], STEPS),
    );
    let text = Workload::new(
        format!("text, {} guards for the counter", GUARDS.len()),
        COUNTER.to_vec(),
        Work::Text(GUARDS.map(String::from).into()),
    );
    let others = vec![deep, text];
    [
        checks(),
        runs(),
        chains::timed(),
        undos(),
        readings(),
        others,
        joins::timed(),
        vec![rewrite("rewrite, 4,000 nodes", &large(4_000))],
        windows(),
    ]
    .into_iter()
    .flatten()
    .collect()
}

fn checks() -> Vec<Workload> {
    let check = |name, nodes| Workload::new(name, large(nodes).encode(), Work::Check);
    vec![
        check("check, 4,000 nodes", 4_000),
        check("check, 12,000 nodes", 12_000),
    ]
}

/// The model's old file in the new layout.
fn rewrite(name: impl Into<String>, model: &Model) -> Workload {
    let old = model.encode_old().expect("a model that has an old file");
    Workload::new(name, model.encode(), Work::Rewrite(old))
}

/// Transitions of the models of 4,000 and of 12,000 nodes that can be fired again and again.
fn large_steps() -> Vec<usize> {
    (0..20).collect()
}

/// Starts and fires.
fn runs() -> Vec<Workload> {
    let counter_nodes = COUNTER.len() / 5 - 2;
    vec![
        Workload::new(
            format!("counter of {counter_nodes} nodes, start and 200 fires"),
            COUNTER.to_vec(),
            Work::Run(COUNTER_STEPS.to_vec(), STEPS),
        ),
        Workload::new(
            "4,000 nodes, 4 rounds, start and 200 fires",
            large(4_000).encode(),
            Work::Run(large_steps(), STEPS),
        ),
        Workload::new(
            "12,000 nodes, 4 rounds, start and 200 fires",
            large(12_000).encode(),
            Work::Run(large_steps(), STEPS),
        ),
    ]
}

/// Steps taken back.
fn undos() -> Vec<Workload> {
    vec![
        Workload::new(
            "counter, undo at n = 200",
            COUNTER.to_vec(),
            Work::Undo(COUNTER_STEPS.to_vec(), STEPS),
        ),
        Workload::new(
            "4,000 nodes, undo at n = 200",
            large(4_000).encode(),
            Work::Undo(large_steps(), STEPS),
        ),
    ]
}

/// Calls that change no run.
fn readings() -> Vec<Workload> {
    vec![
        Workload::new("marks, 255 transitions", guards().encode(), Work::Marks),
        Workload::new(
            "pick, 255 transitions, the second fireable",
            guards().encode(),
            Work::Pick,
        ),
        Workload::new(
            "first_outside, 510 variables, the second outside",
            booleans().encode(),
            Work::FirstOutside(Some(1)),
        ),
        Workload::new(
            "first_outside, 510 variables, all within",
            booleans().encode(),
            Work::FirstOutside(None),
        ),
    ]
}

/// Texts of at most 200 bytes that nest as deep as they can, beside a model of this size, for the stack.
pub fn nested_texts(size: Size) -> Vec<Workload> {
    let model = nests::plain_model(size).encode();
    let nested = |name: &str, beginning: &str, middle: &str, end: &str, times: usize| {
        let text = [&beginning.repeat(times), middle, &end.repeat(times)].concat();
        let name = format!("text, {times} {name}");
        Workload::new(name, model.clone(), Work::Text(vec![text]))
    };
    vec![
        nested("`(`, a digit, as many `)`", "(", "1", ")", 99),
        nested("`(`, as many `)`", "(", "", ")", 100),
        nested("`(`", "(", "", "", 200),
        nested("`-`, a digit", "-", "1", "", 199),
        nested("`-`", "-", "", "", 200),
        nested("`-(`, a digit, as many `)`", "-(", "1", ")", 66),
        nested("`1+(`", "1+(", "", "", 66),
        nested("`1+(`, a digit, as many `)`", "1+(", "1", ")", 49),
        nested("`1<(`, as many `)`", "1<(", "", ")", 50),
        nested("`not `, true", "not ", "true", "", 49),
        nested("`not(`, true, as many `)`", "not(", "true", ")", 39),
        nested("`if `", "if ", "", "", 66),
        nested("`if(`, as many `)`", "if(", "", ")", 50),
        nested(
            "`if v1 then `, 1, as many ` else 2`",
            "if v1 then ",
            "1",
            " else 2",
            11,
        ),
        nested("`div(`, 1, as many `,1)`", "div(", "1", ",1)", 28),
        nested("`(if(`, as many `))`", "(if(", "", "))", 33),
    ]
}

/// A list of workloads of growing size, by what grows.
pub fn growing() -> Vec<(&'static str, Vec<Workload>)> {
    let sizes = [500, 1_000, 2_000, 4_000, 12_000];
    let check = sizes.map(|nodes| {
        let name = format!("check, {nodes} nodes");
        Workload::new(name, large(nodes).encode(), Work::Check)
    });
    let start = sizes.map(|nodes| {
        let name = format!("start, {nodes} nodes");
        Workload::new(name, large(nodes).encode(), Work::Start)
    });
    let steps = [25, 50, 100, 200].map(|n| {
        let name = format!("counter, undo at n = {n}");
        let work = Work::Undo(COUNTER_STEPS.to_vec(), n);
        Workload::new(name, COUNTER.to_vec(), work)
    });
    let rewrites = [500, 1_000, 2_000, 4_000]
        .map(|nodes| rewrite(format!("rewrite, {nodes} nodes"), &large(nodes)));
    vec![
        ("nodes", check.into()),
        ("nodes", start.into()),
        ("nodes", chains::of_growing_models()),
        ("rounds", chains::of_growing_rounds()),
        ("rounds", chains::of_many_rounds()),
        ("rounds", chains::of_growing_conditions()),
        ("flows", chains::of_growing_flows()),
        ("steps", steps.into()),
        ("nodes", joins::of_growing_models()),
        ("members", joins::of_growing_lists()),
        ("nodes", rewrites.into()),
        ("rows", windows::of_growing_logs()),
    ]
}

fn number(value: i32) -> Expr {
    Expr::Number(value)
}

/// Branches of one node, so that the model has exactly so many nodes.
fn filled(mut model: Model, nodes: usize) -> Model {
    let used = model.nodes().len();
    if let Instr::Block(branches) = &mut model.assertion {
        let missing = nodes.saturating_sub(used);
        branches.extend(std::iter::repeat_n(Instr::Skip, missing));
    }
    model
}

/// A model of exactly so many nodes: three layers of flows, each flow a sum over states and the layer before, so
/// that propagation takes 4 rounds; a transition for each 200 nodes, always fireable.
pub fn large(nodes: usize) -> Model {
    let states = 24;
    let transitions = nodes / 200;
    // A transition takes 21 nodes, a state 3, a flow 3 and its assignment 66.
    let flows = (nodes - 1 - 21 * transitions - 3 * states) / 69;
    let variable = |first| Variable::Number {
        low: -999,
        high: 999,
        first,
    };
    let layer = flows.div_ceil(3);
    let branches = (0..flows)
        .rev()
        .map(|place| layered_flow(place, states, layer))
        .collect();
    let model = Model {
        states: vec![variable(7); states],
        flows: vec![variable(0); flows],
        events: transitions as u16,
        transitions: (0..transitions)
            .map(|place| counting_transition(place, states))
            .collect(),
        assertion: Instr::Block(branches),
    };
    filled(model, nodes)
}

/// The assignment of the flow at this place, layers being of so many flows.
fn layered_flow(place: usize, states: usize, layer: usize) -> Instr {
    let before = (place / layer).checked_sub(1);
    let mut leaf = place;
    let tree = sum_tree(5, &mut |depth| {
        leaf += 7;
        match before {
            _ if leaf.is_multiple_of(5) => number((leaf % 9) as i32 + depth as i32),
            Some(before) if leaf.is_multiple_of(2) => {
                Expr::Variable(states + before * layer + leaf % layer)
            }
            _ => Expr::Variable(leaf % states),
        }
    });
    let value = Expr::binary(Operator::Mod, tree, number(1_000));
    Instr::Assign(states + place, value)
}

/// A transition that counts two states up, the guard of which is true.
fn counting_transition(place: usize, states: usize) -> Transition {
    let (one, two) = (place % states, (place + 5) % states);
    let next = |state, step| {
        let sum = Expr::binary(Operator::Plus, Expr::Variable(state), number(step));
        Expr::binary(Operator::Mod, sum, number(1_000))
    };
    Transition {
        event: place as u16,
        guard: Expr::binary(
            Operator::Or,
            Expr::binary(Operator::Less, number(-1_000), Expr::Variable(one)),
            Expr::binary(Operator::Less, Expr::Variable(states), number(1_000)),
        ),
        action: Instr::Block(vec![
            Instr::Assign(one, next(one, 13)),
            Instr::Assign(two, next(two, 17)),
        ]),
    }
}

/// A full tree of sums and differences over leaves.
fn sum_tree(depth: usize, leaf: &mut impl FnMut(usize) -> Expr) -> Expr {
    if depth == 0 {
        return leaf(depth);
    }
    let operator = if depth.is_multiple_of(2) {
        Operator::Minus
    } else {
        Operator::Plus
    };
    let left = sum_tree(depth - 1, leaf);
    Expr::binary(operator, left, sum_tree(depth - 1, leaf))
}

/// 255 transitions, each with a guard of 11 nodes over states.
pub fn guards() -> Model {
    let states = 30;
    let variable = |place: usize| match place.is_multiple_of(2) {
        true => Variable::Boolean {
            first: place.is_multiple_of(4),
        },
        false => Variable::Number {
            low: 0,
            high: 100,
            first: place as i32,
        },
    };
    let transitions = (0..255)
        .map(|place: usize| {
            let boolean = Expr::Variable(place % 15 * 2);
            let counted = |shift: usize| Expr::Variable((place + shift) % 15 * 2 + 1);
            let sum = Expr::binary(Operator::Plus, counted(1), counted(4));
            let relation = Expr::binary(Operator::Less, sum, number((place % 40) as i32));
            let either = Expr::binary(Operator::Or, relation, boolean.negated());
            let equal = Expr::binary(Operator::EqualNumbers, counted(2), number(9));
            Transition {
                event: place as u16,
                guard: Expr::binary(Operator::And, either, equal.negated()),
                action: Instr::Skip,
            }
        })
        .collect();
    Model {
        states: (0..states).map(variable).collect(),
        flows: Vec::new(),
        events: 255,
        transitions,
        assertion: Instr::Skip,
    }
}

/// 255 states and 255 flows, all Booleans, and nothing else.
pub fn booleans() -> Model {
    let variable = Variable::Boolean { first: false };
    Model {
        states: vec![variable; 255],
        flows: vec![variable; 255],
        events: 0,
        transitions: Vec::new(),
        assertion: Instr::Skip,
    }
}

// The variables of the next model: a state that stays false, a state that is toggled, three flows.
const NEVER: usize = 0;
const TOGGLED: usize = 1;
const FIRST: usize = 2;
const SECOND: usize = 3;
const THIRD: usize = 4;

/// A model of so many nodes, nearly all of them below conditions that are false, 32 deep.
pub fn inactive(nodes: usize) -> Model {
    let unchosen = (0..14).fold(Expr::Variable(FIRST), |inner, _| {
        Expr::binary(Operator::Or, inner, Expr::Variable(TOGGLED)).negated()
    });
    let choice = Expr::conditional(Expr::Variable(NEVER), unchosen, Expr::Variable(TOGGLED));
    let mut branches = vec![
        Instr::Assign(FIRST, Expr::Variable(TOGGLED)),
        Instr::Assign(SECOND, Expr::Variable(FIRST)),
        Instr::Assign(THIRD, choice),
    ];
    let mut model = Model {
        states: vec![Variable::Boolean { first: false }; 2],
        flows: vec![Variable::Boolean { first: false }; 3],
        events: 1,
        transitions: vec![Transition {
            event: 0,
            guard: Expr::Variable(NEVER).negated(),
            action: Instr::Assign(TOGGLED, Expr::Variable(TOGGLED).negated()),
        }],
        assertion: Instr::Skip,
    };
    loop {
        model.assertion = Instr::Block(branches.clone());
        branches.push(deep_branch());
        let more = Model {
            assertion: Instr::Block(branches.clone()),
            ..model.clone()
        };
        if more.nodes().len() > nodes {
            return filled(model, nodes);
        }
    }
}

/// A branch with a condition that is false, and under it conditions in one another.
fn deep_branch() -> Instr {
    let both = Expr::binary(
        Operator::And,
        Expr::Variable(TOGGLED),
        Expr::Variable(FIRST),
    );
    let mut body = Instr::Assign(SECOND, Expr::Variable(FIRST));
    while body.depth() < 28 {
        let beside = Instr::Assign(THIRD, both.clone());
        body = Instr::when(both.clone(), Instr::Block(vec![beside, body]));
    }
    Instr::when(Expr::Variable(NEVER), body)
}
