//! Events that happen together: a model with one transition more.

use std::ops::Range;

use super::model::{Expr, ExprId, Instr, InstrId, Layout, Limits, Model, Sizes, Transition};
use super::Refusal;

/// Of the model that is read and of the one that is written.
const LAYOUT: Layout = Layout::WIDE;

const TRANSITION: u8 = 5;
const IF_THEN: u8 = 18;
const BLOCK: u8 = 19;
const AND: u8 = 36;
const OR: u8 = 37;

/// Writes the model with a transition that fires the mandatory ones, and those of the optional ones that can; gives
/// its length in bytes.
pub fn synchronise(
    file: &[u8],
    mandatory: &[usize],
    optional: &[usize],
    out: &mut [u8],
) -> Result<usize, Refusal> {
    let model = Model::parse(file)?;
    if mandatory.is_empty() && optional.is_empty() {
        return Err(Refusal::NoMembers);
    }
    let together = Together {
        mandatory: model.members(mandatory)?,
        optional: model.members(optional)?,
    };
    let nodes = model.sizes.nodes + together.nodes();
    if !together.fits(&model, nodes) {
        return Err(Refusal::NewModelTooLarge);
    }
    let length = LAYOUT.length(nodes);
    let cells = out.get_mut(..length).ok_or(Refusal::NewModelTooLarge)?;
    together.write(&model, file, nodes, cells);
    Ok(length)
}

/// The members of both lists, each in its order.
struct Together<'m> {
    mandatory: Vec<&'m Transition>,
    optional: Vec<&'m Transition>,
}

impl Together<'_> {
    /// The members whose guards make the new guard, and the operator between them.
    fn guarding(&self) -> (&[&Transition], u8) {
        if self.mandatory.is_empty() {
            (&self.optional, OR)
        } else {
            (&self.mandatory, AND)
        }
    }

    /// How many nodes the new transition has.
    fn nodes(&self) -> usize {
        let (guarding, _) = self.guarding();
        let operands: usize = guarding
            .iter()
            .map(|member| member.guard_nodes().len())
            .sum();
        let guard = operands + guarding.len() - 1;
        let mandatory: usize = self
            .mandatory
            .iter()
            .map(|member| member.action_nodes().len())
            .sum();
        let optional: usize = self
            .optional
            .iter()
            .map(|member| 1 + member.guard_nodes().len() + member.action_nodes().len())
            .sum();
        // The nodes of the transition itself and of its block are two more.
        2 + guard + mandatory + optional
    }

    /// Whether the new model, of so many nodes, stays within every limit.
    fn fits(&self, model: &Model, nodes: usize) -> bool {
        model.sizes.events < LAYOUT.largest_size()
            && model.sizes.transitions < LAYOUT.largest_size()
            && nodes <= LAYOUT.nodes
            && self.guard_depth(model) <= Limits::DEPTH
            && self.action_depth(model) <= Limits::DEPTH
    }

    /// From the right: each guard but the last stands beside all that follow it.
    fn guard_depth(&self, model: &Model) -> usize {
        let (guarding, _) = self.guarding();
        let depths = guarding.iter().map(|member| model.expr_depth(member.guard));
        depths
            .rev()
            .reduce(|rest, depth| 1 + depth.max(rest))
            .unwrap_or(0)
    }

    fn action_depth(&self, model: &Model) -> usize {
        let mandatory = self
            .mandatory
            .iter()
            .map(|member| model.instr_depth(member.action));
        let optional = self.optional.iter().map(|member| {
            let guard = model.expr_depth(member.guard);
            1 + guard.max(model.instr_depth(member.action))
        });
        1 + mandatory.chain(optional).max().unwrap_or(0)
    }

    /// Writes the new model, of so many nodes, into cells of its length.
    fn write(&self, model: &Model, file: &[u8], nodes: usize, cells: &mut [u8]) {
        let sizes = model.sizes;
        let new_sizes = Sizes {
            events: sizes.events + 1,
            transitions: sizes.transitions + 1,
            nodes,
            ..sizes
        };
        let (header, columns) = cells.split_at_mut(LAYOUT.header());
        LAYOUT.write_sizes(new_sizes, header);
        let old = file[LAYOUT.header()..].split_at(sizes.nodes);
        let new = columns.split_at_mut(nodes);
        let mut writer = Writer { old, new, place: 0 };
        writer.copy(0..model.assertion_place);
        writer.node(TRANSITION, sizes.events as i32);
        self.write_guard(&mut writer);
        self.write_action(&mut writer);
        writer.copy(model.assertion_place..sizes.nodes);
    }

    /// The guards, nested to the right.
    fn write_guard(&self, writer: &mut Writer) {
        let (guarding, operator) = self.guarding();
        for (place, member) in guarding.iter().enumerate() {
            if place + 1 < guarding.len() {
                writer.node(operator, 0);
            }
            writer.copy(member.guard_nodes());
        }
    }

    /// A block: the mandatory actions, then each optional action under its own guard.
    fn write_action(&self, writer: &mut Writer) {
        let branches = self.mandatory.len() + self.optional.len();
        writer.node(BLOCK, branches as i32);
        for member in &self.mandatory {
            writer.copy(member.action_nodes());
        }
        for member in &self.optional {
            writer.node(IF_THEN, 0);
            writer.copy(member.guard_nodes());
            writer.copy(member.action_nodes());
        }
    }
}

/// Writes the nodes of a new model in their order, taking some from an old one. A pair is the kinds and the
/// parameters, which have four bytes each.
struct Writer<'a> {
    old: (&'a [u8], &'a [u8]),
    new: (&'a mut [u8], &'a mut [u8]),
    place: usize,
}

impl Writer<'_> {
    fn node(&mut self, kind: u8, parameter: i32) {
        let place = self.place;
        self.new.0[place] = kind;
        self.new.1[4 * place..4 * place + 4].copy_from_slice(&parameter.to_le_bytes());
        self.place += 1;
    }

    /// The nodes at these places of the old model.
    fn copy(&mut self, nodes: Range<usize>) {
        let (place, end) = (self.place, self.place + nodes.len());
        self.new.0[place..end].copy_from_slice(&self.old.0[nodes.clone()]);
        self.new.1[4 * place..4 * end].copy_from_slice(&self.old.1[4 * nodes.start..4 * nodes.end]);
        self.place = end;
    }
}

impl Transition {
    fn guard_nodes(&self) -> Range<usize> {
        self.places.guard..self.places.action
    }

    fn action_nodes(&self) -> Range<usize> {
        self.places.action..self.places.end
    }
}

impl Model {
    /// The transitions with these numbers.
    fn members(&self, numbers: &[usize]) -> Result<Vec<&Transition>, Refusal> {
        numbers
            .iter()
            .map(|&number| {
                self.transitions
                    .get(number)
                    .ok_or(Refusal::NoSuchTransition)
            })
            .collect()
    }

    fn expr_depth(&self, id: ExprId) -> usize {
        let depth = |id| self.expr_depth(id);
        1 + match self.expr(id) {
            Expr::Constant(_) | Expr::Variable(_) => 0,
            Expr::Not(operand) => depth(operand),
            Expr::Binary(_, left, right) => depth(left).max(depth(right)),
            Expr::Conditional(condition, chosen, other) => {
                depth(condition).max(depth(chosen)).max(depth(other))
            }
        }
    }

    fn instr_depth(&self, id: InstrId) -> usize {
        1 + match self.instr(id) {
            Instr::Skip => 0,
            Instr::Assign { value, .. } => self.expr_depth(value),
            Instr::When { condition, body } => {
                self.expr_depth(condition).max(self.instr_depth(body))
            }
            Instr::Block { first, end } => {
                let branches = self.branches(first, end).iter();
                let depths = branches.map(|&branch| self.instr_depth(branch));
                depths.max().unwrap_or(0)
            }
        }
    }
}
