//! Models as trees that can be built, shuffled and written to the file format.

use crate::random::Random;

#[derive(Clone, Debug, PartialEq)]
pub enum Expr {
    Number(i32),
    Boolean(bool),
    Variable(usize),
    Not(Box<Expr>),
    Binary(Operator, Box<Expr>, Box<Expr>),
    Conditional(Box<Expr>, Box<Expr>, Box<Expr>),
}

#[derive(Clone, Copy, Debug, PartialEq, Eq)]
#[repr(u8)]
pub enum Operator {
    And = 36,
    Or = 37,
    EqualNumbers = 38,
    Less = 39,
    LessOrEqual = 40,
    Plus = 41,
    Minus = 42,
    Times = 43,
    Div = 44,
    Mod = 45,
    EqualBooleans = 47,
}

impl Operator {
    pub fn symmetric(self) -> bool {
        use Operator::*;
        matches!(self, And | Or | EqualNumbers | Plus | Times | EqualBooleans)
    }
}

#[derive(Clone, Debug, PartialEq)]
pub enum Instr {
    Skip,
    Assign(usize, Expr),
    When(Expr, Box<Instr>),
    Block(Vec<Instr>),
}

#[derive(Clone, Copy, Debug, PartialEq)]
pub enum Variable {
    Boolean { first: bool },
    Number { low: i32, high: i32, first: i32 },
}

impl Variable {
    pub fn is_boolean(&self) -> bool {
        matches!(self, Variable::Boolean { .. })
    }

    /// A state's initial value, a flow's reset value.
    pub fn first(&self) -> i32 {
        match *self {
            Variable::Boolean { first } => i32::from(first),
            Variable::Number { first, .. } => first,
        }
    }

    /// Its ends.
    pub fn ends(&self) -> (i32, i32) {
        match *self {
            Variable::Boolean { .. } => (0, 1),
            Variable::Number { low, high, .. } => (low, high),
        }
    }
}

#[derive(Clone, Debug, PartialEq)]
pub struct Transition {
    pub event: u16,
    pub guard: Expr,
    pub action: Instr,
}

#[derive(Clone, Debug, PartialEq)]
pub struct Model {
    pub states: Vec<Variable>,
    pub flows: Vec<Variable>,
    pub events: u16,
    pub transitions: Vec<Transition>,
    pub assertion: Instr,
}

impl Expr {
    pub fn negated(self) -> Expr {
        Expr::Not(Box::new(self))
    }

    pub fn binary(operator: Operator, left: Expr, right: Expr) -> Expr {
        Expr::Binary(operator, Box::new(left), Box::new(right))
    }

    pub fn conditional(condition: Expr, chosen: Expr, other: Expr) -> Expr {
        Expr::Conditional(Box::new(condition), Box::new(chosen), Box::new(other))
    }

    pub fn depth(&self) -> usize {
        1 + match self {
            Expr::Number(_) | Expr::Boolean(_) | Expr::Variable(_) => 0,
            Expr::Not(operand) => operand.depth(),
            Expr::Binary(_, left, right) => left.depth().max(right.depth()),
            Expr::Conditional(condition, chosen, other) => {
                condition.depth().max(chosen.depth()).max(other.depth())
            }
        }
    }

    /// Kinds and parameters in prefix order.
    pub fn nodes(&self) -> Vec<Node> {
        let mut nodes = Vec::new();
        self.write(&mut nodes);
        nodes
    }

    fn write(&self, nodes: &mut Vec<Node>) {
        match self {
            Expr::Number(number) => nodes.push((32, *number)),
            Expr::Boolean(value) => nodes.push((33, i32::from(*value))),
            Expr::Variable(variable) => nodes.push((34, *variable as i32)),
            Expr::Not(operand) => {
                nodes.push((35, 0));
                operand.write(nodes);
            }
            Expr::Binary(operator, left, right) => {
                nodes.push((*operator as u8, 0));
                left.write(nodes);
                right.write(nodes);
            }
            Expr::Conditional(condition, chosen, other) => {
                nodes.push((46, 0));
                condition.write(nodes);
                chosen.write(nodes);
                other.write(nodes);
            }
        }
    }

    fn shuffle(&mut self, random: &mut Random) {
        match self {
            Expr::Number(_) | Expr::Boolean(_) | Expr::Variable(_) => {}
            Expr::Not(operand) => operand.shuffle(random),
            Expr::Binary(operator, left, right) => {
                left.shuffle(random);
                right.shuffle(random);
                if operator.symmetric() && random.coin() {
                    std::mem::swap(left, right);
                }
            }
            Expr::Conditional(condition, chosen, other) => {
                condition.shuffle(random);
                chosen.shuffle(random);
                other.shuffle(random);
            }
        }
    }
}

impl Instr {
    pub fn when(condition: Expr, body: Instr) -> Instr {
        Instr::When(condition, Box::new(body))
    }

    pub fn depth(&self) -> usize {
        1 + match self {
            Instr::Skip => 0,
            Instr::Assign(_, value) => value.depth(),
            Instr::When(condition, body) => condition.depth().max(body.depth()),
            Instr::Block(branches) => branches.iter().map(Instr::depth).max().unwrap_or(0),
        }
    }

    /// Kinds and parameters in prefix order.
    pub fn nodes(&self) -> Vec<Node> {
        let mut nodes = Vec::new();
        self.write(&mut nodes);
        nodes
    }

    fn write(&self, nodes: &mut Vec<Node>) {
        match self {
            Instr::Skip => nodes.push((16, 0)),
            Instr::Assign(target, value) => {
                nodes.push((17, *target as i32));
                value.write(nodes);
            }
            Instr::When(condition, body) => {
                nodes.push((18, 0));
                condition.write(nodes);
                body.write(nodes);
            }
            Instr::Block(branches) => {
                nodes.push((19, branches.len() as i32));
                for branch in branches {
                    branch.write(nodes);
                }
            }
        }
    }

    fn shuffle(&mut self, random: &mut Random) {
        match self {
            Instr::Skip => {}
            Instr::Assign(_, value) => value.shuffle(random),
            Instr::When(condition, body) => {
                condition.shuffle(random);
                body.shuffle(random);
            }
            Instr::Block(branches) => {
                for branch in branches.iter_mut() {
                    branch.shuffle(random);
                }
                random.shuffle(branches);
            }
        }
    }
}

impl Model {
    /// A model with one transition and its event.
    pub fn with_transition(
        states: Vec<Variable>,
        flows: Vec<Variable>,
        guard: Expr,
        action: Instr,
        assertion: Instr,
    ) -> Model {
        Model {
            states,
            flows,
            events: 1,
            transitions: vec![Transition {
                event: 0,
                guard,
                action,
            }],
            assertion,
        }
    }

    pub fn variables(&self) -> impl Iterator<Item = &Variable> {
        self.states.iter().chain(&self.flows)
    }

    /// Kinds and parameters in prefix order.
    pub fn nodes(&self) -> Vec<Node> {
        let mut nodes = Vec::new();
        for variable in self.variables() {
            match *variable {
                Variable::Boolean { first } => nodes.push((1, i32::from(first))),
                Variable::Number { low, high, first } => {
                    nodes.extend([(2, low), (3, high), (4, first)]);
                }
            }
        }
        for transition in &self.transitions {
            nodes.push((5, i32::from(transition.event)));
            transition.guard.write(&mut nodes);
            transition.action.write(&mut nodes);
        }
        self.assertion.write(&mut nodes);
        nodes
    }

    /// The depth of its deepest guard, action or assertion.
    pub fn depth(&self) -> usize {
        let transitions = self.transitions.iter();
        transitions
            .map(|transition| transition.guard.depth().max(transition.action.depth()))
            .fold(self.assertion.depth(), usize::max)
    }

    /// S, F, E, T.
    pub fn sizes(&self) -> [u16; 4] {
        [
            self.states.len() as u16,
            self.flows.len() as u16,
            self.events,
            self.transitions.len() as u16,
        ]
    }

    /// The model file.
    pub fn encode(&self) -> Vec<u8> {
        encode(self.sizes(), &self.nodes())
    }

    /// The old model file, where the model has one.
    pub fn encode_old(&self) -> Option<Vec<u8>> {
        let nodes = self.nodes();
        let has_one = Layout::Byte.holds(self.sizes(), nodes.len());
        has_one.then(|| Layout::Byte.encode(self.sizes(), &nodes))
    }

    /// Exchanges branches of any block and operands of any symmetric operator.
    pub fn shuffled(&self, random: &mut Random) -> Model {
        let mut model = self.clone();
        for transition in &mut model.transitions {
            transition.guard.shuffle(random);
            transition.action.shuffle(random);
        }
        model.assertion.shuffle(random);
        model
    }
}

/// A kind and a parameter.
pub type Node = (u8, i32);

/// How the sizes stand at the head of a file.
#[derive(Clone, Copy, Debug, PartialEq, Eq)]
pub enum Layout {
    /// S, F, E, T have one byte each: old files.
    Byte,
    /// They have two bytes each, low byte first.
    Wide,
}

impl Layout {
    pub fn width(self) -> usize {
        match self {
            Layout::Byte => 1,
            Layout::Wide => 2,
        }
    }

    /// Bytes of the sizes; N has two.
    pub fn header(self) -> usize {
        4 * self.width() + 2
    }

    /// The largest N.
    pub fn max_nodes(self) -> usize {
        match self {
            Layout::Byte => 4_000,
            Layout::Wide => 12_000,
        }
    }

    /// Whether these sizes can be written and so many nodes are not too many.
    pub fn holds(self, sizes: [u16; 4], nodes: usize) -> bool {
        let is_short = |&size: &u16| self == Layout::Wide || size <= 255;
        sizes.iter().all(is_short) && nodes <= self.max_nodes()
    }

    /// A file of these sizes, of which it takes the low bytes, and these nodes, N being their number.
    pub fn encode(self, sizes: [u16; 4], nodes: &[Node]) -> Vec<u8> {
        let sizes = sizes.map(u16::to_le_bytes);
        let mut file: Vec<u8> = sizes
            .iter()
            .flat_map(|bytes| &bytes[..self.width()])
            .copied()
            .collect();
        file.extend((nodes.len() as u16).to_le_bytes());
        file.extend(nodes.iter().map(|&(kind, _)| kind));
        file.extend(
            nodes
                .iter()
                .flat_map(|&(_, parameter)| parameter.to_le_bytes()),
        );
        file
    }

    /// The sizes and the nodes of a file whose length fits its N.
    pub fn decode(self, file: &[u8]) -> Option<([u16; 4], Vec<Node>)> {
        let (header, body) = file.split_at_checked(self.header())?;
        let (sizes, count) = header.split_at(4 * self.width());
        let size = |place: usize| match self {
            Layout::Byte => u16::from(sizes[place]),
            Layout::Wide => u16::from_le_bytes([sizes[2 * place], sizes[2 * place + 1]]),
        };
        let count = usize::from(u16::from_le_bytes([count[0], count[1]]));
        if body.len() != 5 * count {
            return None;
        }
        let (kinds, parameters) = body.split_at(count);
        let parameters = parameters
            .chunks_exact(4)
            .map(|bytes| i32::from_le_bytes(bytes.try_into().expect("four bytes")));
        let nodes = kinds.iter().copied().zip(parameters).collect();
        Some(([0, 1, 2, 3].map(size), nodes))
    }
}

/// A file of these sizes and nodes, N being their number.
pub fn encode(sizes: [u16; 4], nodes: &[Node]) -> Vec<u8> {
    Layout::Wide.encode(sizes, nodes)
}

/// The sizes and the nodes of a file whose length fits its N.
pub fn decode(file: &[u8]) -> Option<([u16; 4], Vec<Node>)> {
    Layout::Wide.decode(file)
}

/// A file as its sizes and as text, the branches of blocks and the operands of symmetric operators sorted: two accepted
/// files are shuffles of each other exactly if this is the same for both.
pub fn sorted(file: &[u8]) -> Option<([u16; 4], Vec<String>)> {
    let (sizes, nodes) = decode(file)?;
    let subtrees = subtrees(&nodes)?;
    Some((sizes, subtrees.iter().map(Subtree::sorted).collect()))
}

/// The nodes of an accepted model, or of an accepted expression, with branches of any block and operands of any symmetric
/// operator exchanged.
pub fn shuffled(random: &mut Random, nodes: &[Node]) -> Vec<Node> {
    let mut exchanged = Vec::with_capacity(nodes.len());
    for mut subtree in subtrees(nodes).expect("a node is missing") {
        subtree.shuffle(random);
        subtree.write(&mut exchanged);
    }
    exchanged
}

/// A node and all below it.
struct Subtree {
    node: Node,
    below: Vec<Subtree>,
}

/// None if a node is missing.
fn subtrees(nodes: &[Node]) -> Option<Vec<Subtree>> {
    let mut place = 0;
    let mut subtrees = Vec::new();
    while place < nodes.len() {
        subtrees.push(Subtree::read(nodes, &mut place)?);
    }
    Some(subtrees)
}

impl Subtree {
    /// The one at this place, and the place after it; none if a node is missing.
    fn read(nodes: &[Node], place: &mut usize) -> Option<Self> {
        let &(kind, parameter) = nodes.get(*place)?;
        *place += 1;
        let count = match kind {
            5 | 18 | 36..=45 | 47 => 2,
            17 | 35 => 1,
            19 => parameter as usize,
            46 => 3,
            _ => 0,
        };
        let below = (0..count).map(|_| Subtree::read(nodes, place));
        Some(Subtree {
            node: (kind, parameter),
            below: below.collect::<Option<_>>()?,
        })
    }

    /// Whether what stands directly below may be exchanged.
    fn is_symmetric(&self) -> bool {
        matches!(self.node.0, 19 | 36 | 37 | 38 | 41 | 43 | 47)
    }

    fn sorted(&self) -> String {
        let mut below: Vec<String> = self.below.iter().map(Subtree::sorted).collect();
        if self.is_symmetric() {
            below.sort();
        }
        let (kind, parameter) = self.node;
        format!("{kind},{parameter}({})", below.join(" "))
    }

    fn shuffle(&mut self, random: &mut Random) {
        for subtree in &mut self.below {
            subtree.shuffle(random);
        }
        if self.is_symmetric() {
            random.shuffle(&mut self.below);
        }
    }

    fn write(&self, nodes: &mut Vec<Node>) {
        nodes.push(self.node);
        for subtree in &self.below {
            subtree.write(nodes);
        }
    }
}

/// The depth of each node; 0 for variables and transitions.
pub fn depths(nodes: &[Node]) -> Vec<usize> {
    // For each node above, how many of its children are still due.
    let mut due: Vec<usize> = Vec::new();
    let mut base = 0;
    nodes
        .iter()
        .map(|&(kind, parameter)| {
            if due.is_empty() && matches!(kind, 16..=19) {
                // The assertion stands below no transition.
                base = 1;
            }
            let depth = base + due.len();
            if let Some(children) = due.last_mut() {
                *children -= 1;
            }
            due.push(match kind {
                17 | 35 => 1,
                5 | 18 | 36..=45 | 47 => 2,
                46 => 3,
                19 => usize::try_from(parameter).unwrap_or(0),
                _ => 0,
            });
            while due.last() == Some(&0) {
                due.pop();
            }
            depth
        })
        .collect()
}
