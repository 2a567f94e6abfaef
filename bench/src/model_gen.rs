//! Random models, damaged files, old files, and all that is lent to lists of calls, to texts, to joins, to rewritings and to
//! calls on logs.

mod crowds;
mod damage;
mod joins;
mod lists;
mod logs;
mod old_files;
mod shapes;
mod shops;
mod texts;
mod undecided;
mod writer;

pub use damage::damaged;
pub use joins::{join, joined};
pub use lists::{calls, store};
pub use logs::{log, twins};
pub use old_files::{old_file, rewriting, OldFile};
pub use texts::typed;

use crate::random::Random;
use crate::tree::Model;

pub const MAX_NODES: usize = 12_000;
pub const MAX_VARIABLES: usize = 4_000;
pub const MAX_DEPTH: usize = 32;

/// What a random model looks like.
#[derive(Clone, Copy, Debug, PartialEq, Eq)]
pub enum Shape {
    /// A few variables and transitions; anything goes.
    Small,
    /// Flows that depend on each other in some order: mostly accepted.
    Ordered,
    /// Flows that may depend on each other in a cycle.
    Cyclic,
    /// A chain of up to 600 flows in any order.
    Chain,
    /// Nested down to depth 32.
    Deep,
    /// Up to 12,000 nodes.
    Wide,
    /// As many states, flows, events and transitions, from 127 to 1,190 of each.
    Full,
    /// Small models side by side: up to 12,000 nodes.
    Shop,
    /// Up to 4,000 variables or 3,999 transitions, each of a few nodes.
    Crowded,
    /// Numbers at the 32-bit ends.
    Ends,
    /// Several faults in one action and in one round.
    Faulty,
    /// If-then-else over flows that become known one round after another.
    Undecided,
}

pub const SHAPES: [Shape; 12] = [
    Shape::Small,
    Shape::Ordered,
    Shape::Cyclic,
    Shape::Chain,
    Shape::Deep,
    Shape::Wide,
    Shape::Full,
    Shape::Shop,
    Shape::Crowded,
    Shape::Ends,
    Shape::Faulty,
    Shape::Undecided,
];

/// A random shape; large models are rarer.
pub fn shape(random: &mut Random) -> Shape {
    match random.below(40) {
        0 if random.chance(1, 3) => Shape::Wide,
        0 if random.coin() => Shape::Shop,
        0 => Shape::Crowded,
        1 if random.coin() => Shape::Full,
        1..=3 => Shape::Chain,
        4..=7 => Shape::Deep,
        8..=13 => Shape::Ends,
        14..=18 => Shape::Undecided,
        19..=22 => Shape::Cyclic,
        23..=25 => Shape::Faulty,
        26..=30 => Shape::Small,
        _ => Shape::Ordered,
    }
}

/// A well-formed model of this shape.
pub fn model(random: &mut Random, shape: Shape) -> Model {
    loop {
        let model = match shape {
            Shape::Chain => shapes::chain(random),
            Shape::Deep => shapes::deep(random),
            Shape::Full => shapes::full(random),
            Shape::Shop => shops::shop(random),
            Shape::Crowded => crowds::crowded(random),
            Shape::Wide => shapes::wide(random),
            Shape::Faulty => shapes::faulty(random),
            Shape::Undecided => undecided::undecided(random),
            _ => shapes::plain(random, shape),
        };
        let variables = model.variables().count();
        if variables <= MAX_VARIABLES
            && model.nodes().len() <= MAX_NODES
            && model.depth() <= MAX_DEPTH
        {
            return model;
        }
    }
}
