//! The model file parsed into a tree: the checks 1, 2, 37, 3, 4 to 8.

use super::Refusal;

/// The limits of a model, of a text and of a window.
pub struct Limits;

impl Limits {
    pub const DEPTH: usize = 32;
    /// Bytes of a text.
    pub const TEXT: usize = 200;
    /// Cells that are lent for a text's nodes, at least.
    pub const TEXT_NODES: usize = 400;
    /// Rows of a window.
    pub const WINDOW: usize = 1_000;
}

/// How the sizes stand at the head of a file, and their limits.
#[derive(Clone, Copy, Debug)]
pub struct Layout {
    /// Bytes of each of S, F, E, T, low byte first; N has two.
    width: usize,
    /// The largest N.
    pub nodes: usize,
    /// The largest S + F, where it has a limit of its own.
    variables: Option<usize>,
}

impl Layout {
    /// That of old files, which can only be rewritten.
    pub const BYTE: Layout = Layout {
        width: 1,
        nodes: 4_000,
        variables: None,
    };
    /// That of all other files.
    pub const WIDE: Layout = Layout {
        width: 2,
        nodes: 12_000,
        variables: Some(4_000),
    };

    /// Bytes of the five sizes.
    pub const fn header(&self) -> usize {
        4 * self.width + 2
    }

    /// The largest S, F, E or T that can be written.
    pub const fn largest_size(&self) -> usize {
        (1 << (8 * self.width)) - 1
    }

    /// Bytes of a file of so many nodes.
    pub const fn length(&self, nodes: usize) -> usize {
        self.header() + 5 * nodes
    }

    /// The sizes that stand at the head of a file: refusals 1, 2, 37, 3.
    fn sizes(&self, file: &[u8]) -> Result<Sizes, Refusal> {
        let header = file.get(..self.header()).ok_or(Refusal::ShortFile)?;
        let (counts, nodes) = header.split_at(4 * self.width);
        let mut counts = counts.chunks_exact(self.width).map(little);
        let mut count = || counts.next().expect("four sizes");
        let sizes = Sizes {
            states: count(),
            flows: count(),
            events: count(),
            transitions: count(),
            nodes: little(nodes),
        };
        if sizes.nodes > self.nodes {
            return Err(Refusal::TooManyNodes);
        }
        if self.variables.is_some_and(|most| sizes.variables() > most) {
            return Err(Refusal::TooManyVariables);
        }
        if file.len() != self.length(sizes.nodes) {
            return Err(Refusal::LengthDiffers);
        }
        Ok(sizes)
    }

    /// Writes the sizes into a header of this layout, whose limits they keep.
    pub(super) fn write_sizes(&self, sizes: Sizes, header: &mut [u8]) {
        let (counts, nodes) = header.split_at_mut(4 * self.width);
        let values = [sizes.states, sizes.flows, sizes.events, sizes.transitions];
        for (cells, value) in counts.chunks_exact_mut(self.width).zip(values) {
            cells.copy_from_slice(&value.to_le_bytes()[..self.width]);
        }
        nodes.copy_from_slice(&sizes.nodes.to_le_bytes()[..2]);
    }
}

/// The number that these bytes are, low byte first.
fn little(bytes: &[u8]) -> usize {
    let number = |number, &byte: &u8| 256 * number + usize::from(byte);
    bytes.iter().rev().fold(0, number)
}

#[derive(Clone, Copy, Debug, PartialEq, Eq)]
pub enum Type {
    Boolean,
    Number,
}

/// The five sizes of a model.
#[derive(Clone, Copy, Debug, PartialEq, Eq)]
pub struct Sizes {
    pub states: usize,
    pub flows: usize,
    pub events: usize,
    pub transitions: usize,
    pub nodes: usize,
}

impl Sizes {
    pub fn variables(&self) -> usize {
        self.states + self.flows
    }

    /// S, F, E, T, N.
    pub fn to_array(self) -> [u32; 5] {
        [
            self.states as u32,
            self.flows as u32,
            self.events as u32,
            self.transitions as u32,
            self.nodes as u32,
        ]
    }
}

#[derive(Clone, Copy, Debug)]
pub struct Variable {
    pub sort: Type,
    pub low: i32,
    pub high: i32,
    /// A state's initial value, a flow's reset value.
    pub first: i32,
}

impl Variable {
    pub fn admits(&self, value: i32) -> bool {
        (self.low..=self.high).contains(&value)
    }
}

/// An expression's place in its model.
#[derive(Clone, Copy, Debug)]
pub struct ExprId(u32);

/// An instruction's place in its model.
#[derive(Clone, Copy, Debug)]
pub struct InstrId(u32);

#[derive(Clone, Copy, Debug)]
pub enum Operator {
    And,
    Or,
    Equal,
    Less,
    LessOrEqual,
    Plus,
    Minus,
    Times,
    Div,
    Mod,
}

/// A Boolean is 0 or 1.
#[derive(Clone, Copy, Debug)]
pub enum Expr {
    Constant(i32),
    Variable(u32),
    Not(ExprId),
    Binary(Operator, ExprId, ExprId),
    Conditional(ExprId, ExprId, ExprId),
}

#[derive(Clone, Copy, Debug)]
pub enum Instr {
    Skip,
    Assign {
        target: u32,
        value: ExprId,
    },
    When {
        condition: ExprId,
        body: InstrId,
    },
    /// The branches from `first` up to `end` in the model's list of branches.
    Block {
        first: u32,
        end: u32,
    },
}

#[derive(Clone, Copy, Debug)]
pub struct Transition {
    pub guard: ExprId,
    pub action: InstrId,
    pub places: Places,
}

/// Where a transition's nodes stand in the file: those of its guard from `guard` up to `action`, those of its action
/// from there up to `end`.
#[derive(Clone, Copy, Debug)]
pub struct Places {
    pub guard: usize,
    pub action: usize,
    pub end: usize,
}

#[derive(Debug)]
pub struct Model {
    pub sizes: Sizes,
    pub variables: Vec<Variable>,
    pub transitions: Vec<Transition>,
    pub assertion: InstrId,
    /// Where the nodes of the assertion begin.
    pub assertion_place: usize,
    pub(super) tree: Tree,
}

/// An expression that is handed beside a model.
#[derive(Debug)]
pub struct Expression {
    pub(super) top: ExprId,
    pub(super) tree: Tree,
}

/// All expressions and instructions; children stand before their parents.
#[derive(Debug, Default)]
pub(super) struct Tree {
    exprs: Vec<Expr>,
    instrs: Vec<Instr>,
    branches: Vec<InstrId>,
}

impl Model {
    pub fn parse(file: &[u8]) -> Result<Model, Refusal> {
        Model::parse_in(&Layout::WIDE, file)
    }

    pub fn parse_in(layout: &Layout, file: &[u8]) -> Result<Model, Refusal> {
        let sizes = layout.sizes(file)?;
        let (kinds, parameters) = file[layout.header()..].split_at(sizes.nodes);
        let parameters: Vec<i32> = parameters
            .chunks_exact(4)
            .map(|bytes| i32::from_le_bytes([bytes[0], bytes[1], bytes[2], bytes[3]]))
            .collect();
        let mut walk = Walk::new(kinds, &parameters);
        walk.variables.reserve_exact(sizes.variables());
        for _ in 0..sizes.variables() {
            let variable = walk.variable()?;
            walk.variables.push(variable);
        }
        walk.states = sizes.states;
        // T may be larger than the nodes allow.
        let mut transitions = Vec::with_capacity(sizes.transitions.min(sizes.nodes / 3));
        for _ in 0..sizes.transitions {
            transitions.push(walk.transition(sizes.events)?);
        }
        let assertion_place = walk.place;
        let assertion = walk.instruction(Context::Assertion, 1)?;
        walk.finish()?;
        Ok(Model {
            sizes,
            variables: walk.variables,
            transitions,
            assertion,
            assertion_place,
            tree: walk.tree,
        })
    }

    /// Parses an expression of the type `wanted` that is handed beside this model: refusals 3, 4 to 8.
    pub fn expression(
        &self,
        kinds: &[u8],
        parameters: &[i32],
        wanted: Type,
    ) -> Result<Expression, Refusal> {
        if kinds.len() != parameters.len() {
            return Err(Refusal::LengthDiffers);
        }
        let mut walk = Walk::new(kinds, parameters);
        walk.variables.clone_from(&self.variables);
        let top = walk.expression(wanted, 1)?;
        walk.finish()?;
        let tree = walk.tree;
        Ok(Expression { top, tree })
    }

    pub fn expr(&self, id: ExprId) -> Expr {
        self.tree.expr(id)
    }

    pub fn instr(&self, id: InstrId) -> Instr {
        self.tree.instrs[id.0 as usize]
    }

    pub fn branches(&self, first: u32, end: u32) -> &[InstrId] {
        &self.tree.branches[first as usize..end as usize]
    }
}

impl Tree {
    pub(super) fn expr(&self, id: ExprId) -> Expr {
        self.exprs[id.0 as usize]
    }
}

/// Where an instruction stands: actions assign states, the assertion flows.
#[derive(Clone, Copy)]
enum Context {
    Action,
    Assertion,
}

/// The walk over the nodes in prefix order, and the tree built so far.
struct Walk<'a> {
    kinds: &'a [u8],
    parameters: &'a [i32],
    place: usize,
    states: usize,
    variables: Vec<Variable>,
    tree: Tree,
    /// Branches of the blocks that are being walked.
    open: Vec<InstrId>,
}

impl<'a> Walk<'a> {
    fn new(kinds: &'a [u8], parameters: &'a [i32]) -> Self {
        let tree = Tree {
            exprs: Vec::with_capacity(kinds.len()),
            ..Tree::default()
        };
        Walk {
            kinds,
            parameters,
            place: 0,
            states: 0,
            variables: Vec::new(),
            tree,
            open: Vec::new(),
        }
    }

    /// The node that is due: refusals 4 and 5.
    fn node(&mut self, depth: usize) -> Result<(u8, i32), Refusal> {
        let place = self.place;
        let (Some(&kind), Some(&parameter)) = (self.kinds.get(place), self.parameters.get(place))
        else {
            return Err(Refusal::NodeMissing);
        };
        if depth > Limits::DEPTH {
            return Err(Refusal::TooDeep);
        }
        self.place += 1;
        Ok((kind, parameter))
    }

    /// A node of this one kind, outside guards, actions and the assertion.
    fn node_of(&mut self, wanted: u8) -> Result<i32, Refusal> {
        let (kind, parameter) = self.node(0)?;
        allow_kind(kind == wanted)?;
        Ok(parameter)
    }

    fn finish(&self) -> Result<(), Refusal> {
        if self.place < self.kinds.len() {
            return Err(Refusal::NodesLeftOver);
        }
        Ok(())
    }

    fn variable(&mut self) -> Result<Variable, Refusal> {
        let (kind, parameter) = self.node(0)?;
        match kind {
            1 => {
                allow_parameter(is_boolean(parameter))?;
                Ok(Variable {
                    sort: Type::Boolean,
                    low: 0,
                    high: 1,
                    first: parameter,
                })
            }
            2 => {
                let low = parameter;
                let high = self.node_of(3)?;
                allow_parameter(low <= high)?;
                let first = self.node_of(4)?;
                allow_parameter((low..=high).contains(&first))?;
                Ok(Variable {
                    sort: Type::Number,
                    low,
                    high,
                    first,
                })
            }
            _ => Err(Refusal::KindNotAllowed),
        }
    }

    fn transition(&mut self, events: usize) -> Result<Transition, Refusal> {
        let event = self.node_of(5)?;
        allow_parameter(usize::try_from(event).is_ok_and(|event| event < events))?;
        let guard_place = self.place;
        let guard = self.expression(Type::Boolean, 1)?;
        let action_place = self.place;
        let action = self.instruction(Context::Action, 1)?;
        let places = Places {
            guard: guard_place,
            action: action_place,
            end: self.place,
        };
        Ok(Transition {
            guard,
            action,
            places,
        })
    }

    fn instruction(&mut self, context: Context, depth: usize) -> Result<InstrId, Refusal> {
        let (kind, parameter) = self.node(depth)?;
        let instr = match kind {
            16 => {
                allow_parameter(parameter == 0)?;
                Instr::Skip
            }
            17 => {
                let (target, sort) = self.target(context, parameter)?;
                let value = self.expression(sort, depth + 1)?;
                Instr::Assign { target, value }
            }
            18 => {
                allow_parameter(parameter == 0)?;
                let condition = self.expression(Type::Boolean, depth + 1)?;
                let body = self.instruction(context, depth + 1)?;
                Instr::When { condition, body }
            }
            19 => {
                allow_parameter(parameter >= 0)?;
                let mark = self.open.len();
                for _ in 0..parameter {
                    let branch = self.instruction(context, depth + 1)?;
                    self.open.push(branch);
                }
                let first = self.tree.branches.len() as u32;
                self.tree.branches.extend(self.open.drain(mark..));
                let end = self.tree.branches.len() as u32;
                Instr::Block { first, end }
            }
            _ => return Err(Refusal::KindNotAllowed),
        };
        self.tree.instrs.push(instr);
        Ok(InstrId(self.tree.instrs.len() as u32 - 1))
    }

    /// The variable that an assignment names.
    fn target(&self, context: Context, parameter: i32) -> Result<(u32, Type), Refusal> {
        let target = u32::try_from(parameter).map_err(|_| Refusal::ParameterNotAllowed)?;
        let index = target as usize;
        let allowed = match context {
            Context::Action => index < self.states,
            Context::Assertion => index >= self.states,
        };
        match self.variables.get(index) {
            Some(variable) if allowed => Ok((target, variable.sort)),
            _ => Err(Refusal::ParameterNotAllowed),
        }
    }

    fn expression(&mut self, wanted: Type, depth: usize) -> Result<ExprId, Refusal> {
        let (kind, parameter) = self.node(depth)?;
        let expr = match kind {
            32 => {
                allow_kind(wanted == Type::Number)?;
                Expr::Constant(parameter)
            }
            33 => {
                allow_kind(wanted == Type::Boolean)?;
                allow_parameter(is_boolean(parameter))?;
                Expr::Constant(parameter)
            }
            34 => {
                let variable = u32::try_from(parameter)
                    .ok()
                    .filter(|&v| matches!(self.variables.get(v as usize), Some(found) if found.sort == wanted))
                    .ok_or(Refusal::ParameterNotAllowed)?;
                Expr::Variable(variable)
            }
            35 => {
                allow_kind(wanted == Type::Boolean)?;
                allow_parameter(parameter == 0)?;
                Expr::Not(self.expression(Type::Boolean, depth + 1)?)
            }
            46 => {
                allow_parameter(parameter == 0)?;
                let condition = self.expression(Type::Boolean, depth + 1)?;
                let chosen = self.expression(wanted, depth + 1)?;
                let other = self.expression(wanted, depth + 1)?;
                Expr::Conditional(condition, chosen, other)
            }
            _ => {
                let (operator, operands, result) = binary(kind).ok_or(Refusal::KindNotAllowed)?;
                allow_kind(wanted == result)?;
                allow_parameter(parameter == 0)?;
                let left = self.expression(operands, depth + 1)?;
                let right = self.expression(operands, depth + 1)?;
                Expr::Binary(operator, left, right)
            }
        };
        self.tree.exprs.push(expr);
        Ok(ExprId(self.tree.exprs.len() as u32 - 1))
    }
}

/// A binary operator with the type of its operands and of its result.
pub(super) fn binary(kind: u8) -> Option<(Operator, Type, Type)> {
    use Type::{Boolean, Number};
    Some(match kind {
        36 => (Operator::And, Boolean, Boolean),
        37 => (Operator::Or, Boolean, Boolean),
        38 => (Operator::Equal, Number, Boolean),
        39 => (Operator::Less, Number, Boolean),
        40 => (Operator::LessOrEqual, Number, Boolean),
        41 => (Operator::Plus, Number, Number),
        42 => (Operator::Minus, Number, Number),
        43 => (Operator::Times, Number, Number),
        44 => (Operator::Div, Number, Number),
        45 => (Operator::Mod, Number, Number),
        47 => (Operator::Equal, Boolean, Boolean),
        _ => return None,
    })
}

fn is_boolean(parameter: i32) -> bool {
    matches!(parameter, 0 | 1)
}

fn allow_kind(allowed: bool) -> Result<(), Refusal> {
    allowed.then_some(()).ok_or(Refusal::KindNotAllowed)
}

fn allow_parameter(allowed: bool) -> Result<(), Refusal> {
    allowed.then_some(()).ok_or(Refusal::ParameterNotAllowed)
}
