//! Old files, whole and damaged, and what is lent to rewrite them.

use super::damage::damaged_in;
use super::{model, shape};
use crate::calls::Rewriting;
use crate::random::Random;
use crate::tree::{Instr, Layout, Model};

/// An old file of a random model.
pub struct OldFile {
    pub model: Model,
    /// The model's old file, or a damaged one, or one of more nodes than an old file may have, or a new file.
    pub file: Vec<u8>,
    /// The old file of a shuffled model, where the file is a whole old one.
    pub twin: Option<Vec<u8>>,
}

pub fn old_file(random: &mut Random) -> OldFile {
    loop {
        let shape = shape(random);
        let mut model = model(random, shape);
        if random.chance(1, 20) {
            fill_up(random, &mut model);
        }
        let sizes = model.sizes();
        if sizes.iter().any(|&size| size > 255) {
            continue;
        }
        let mut file = Layout::Byte.encode(sizes, &model.nodes());
        let mut twin = model.shuffled(random).encode_old();
        if twin.is_some() && random.chance(1, 3) {
            file = match random.chance(1, 12) {
                true => model.encode(),
                false => damaged_in(random, Layout::Byte, &file),
            };
            twin = None;
        }
        return OldFile { model, file, twin };
    }
}

/// Gives the assertion further branches, so that there are as many nodes as an old file may have, or one less or more.
fn fill_up(random: &mut Random, model: &mut Model) {
    let most = Layout::Byte.max_nodes();
    let goal = random.between(most - 1, most + 1);
    let used = model.nodes().len();
    if let Instr::Block(branches) = &mut model.assertion {
        let missing = goal.saturating_sub(used);
        branches.extend(std::iter::repeat_n(Instr::Skip, missing));
    }
}

/// A slice for the file of so many nodes in the new layout: mostly as long or longer, at times one cell or more too short.
pub fn rewriting(random: &mut Random, nodes: usize) -> Rewriting {
    let needed = Layout::Wide.header() + 5 * nodes;
    let length = match random.below(12) {
        0 => needed - 1,
        1 => needed - 4,
        2 => random.below(needed),
        3..=6 => needed,
        7 => 20_010,
        8 => needed + random.between(10, 300),
        _ => needed + random.between(1, 9),
    };
    let out: Vec<u8> = (0..length).map(|_| random.byte()).collect();
    Rewriting::new(&out, random.bits() as usize)
}
