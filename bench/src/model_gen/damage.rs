//! Damaged files.

use super::MAX_DEPTH;
use crate::random::Random;
use crate::tree::{depths, Layout, Node};

/// All kinds that mean something.
const KINDS: [u8; 25] = [
    1, 2, 3, 4, 5, 16, 17, 18, 19, 32, 33, 34, 35, 36, 37, 38, 39, 40, 41, 42, 43, 44, 45, 46, 47,
];

/// The file with one to three kinds of damage.
pub fn damaged(random: &mut Random, file: &[u8]) -> Vec<u8> {
    damaged_in(random, Layout::Wide, file)
}

/// A file of this layout with one to three kinds of damage.
pub(super) fn damaged_in(random: &mut Random, layout: Layout, file: &[u8]) -> Vec<u8> {
    let mut file = file.to_vec();
    for _ in 0..random.between(1, 3) {
        if random.chance(3, 4) {
            damage_nodes_in(random, layout, &mut file);
        } else {
            damage_bytes(random, layout, &mut file);
        }
    }
    file
}

/// Damage to bytes anywhere, lengths included.
fn damage_bytes(random: &mut Random, layout: Layout, file: &mut Vec<u8>) {
    match random.below(9) {
        0 => {
            let any = random.between(0, file.len());
            let short = layout.header() - random.below(2);
            file.truncate(*random.one(&[any, any, short]));
        }
        1 => {
            // At times more bytes than any file has.
            let more = match random.chance(1, 8) {
                true => random.between(60_000, 70_000),
                false => random.between(1, 40),
            };
            file.extend((0..more).map(|_| random.byte()));
        }
        2 if random.chance(1, 3) => {
            let length = random.below(200);
            *file = (0..length).map(|_| random.byte()).collect();
        }
        3 if file.len() >= layout.header() => damage_header(random, layout, file),
        _ if file.is_empty() => file.push(random.byte()),
        4..=6 => {
            let sizes = random.below(file.len().min(layout.header()));
            file[sizes] = match random.below(4) {
                0 => random.byte(),
                1 => 0,
                2 => file[sizes].wrapping_sub(1),
                _ => file[sizes].wrapping_add(1),
            };
        }
        7 => {
            let place = random.below(file.len());
            file[place] ^= 1 << random.below(8);
        }
        _ => {
            let place = random.below(file.len());
            file[place] = random.byte();
        }
    }
}

/// Puts N or S + F above its limit, or both, and lets the length fit N or not.
fn damage_header(random: &mut Random, layout: Layout, file: &mut Vec<u8>) {
    let which = random.below(4);
    if which < 2 {
        let most = layout.max_nodes() as u16;
        let nodes = *random.one(&[most + 1, most + 96, 65_535]);
        let place = layout.header() - 2;
        file[place..place + 2].copy_from_slice(&nodes.to_le_bytes());
        if random.chance(1, 6) {
            file.resize(layout.header() + 5 * usize::from(nodes), 0);
        }
    }
    if which > 0 && layout == Layout::Wide {
        damage_variables(random, file);
    }
    match random.below(4) {
        0 => file.truncate(layout.header()),
        1 => file.push(random.byte()),
        _ => {}
    }
}

/// Puts S + F above its limit or at it; at times so far above that 16 bits of it are as before.
fn damage_variables(random: &mut Random, file: &mut [u8]) {
    let size = |place| u16::from_le_bytes([file[place], file[place + 1]]);
    let before = size(0).wrapping_add(size(2));
    let (states, flows) = *random.one(&[
        (4_000, 0),
        (0, 4_000),
        (4_001, 0),
        (0, 4_001),
        (2_001, 2_000),
        (65_535, 65_535),
        (65_535, before.wrapping_add(1)),
        (before.wrapping_add(1), 65_535),
    ]);
    file[..2].copy_from_slice(&u16::to_le_bytes(states));
    file[2..4].copy_from_slice(&u16::to_le_bytes(flows));
}

/// Damage to nodes; the length stays in step with N.
fn damage_nodes_in(random: &mut Random, layout: Layout, file: &mut Vec<u8>) {
    match layout.decode(file) {
        Some((sizes, mut nodes)) if !nodes.is_empty() => {
            damage_nodes(random, sizes, &mut nodes);
            *file = layout.encode(sizes, &nodes);
        }
        _ => damage_bytes(random, layout, file),
    }
}

/// Damage to nodes of a model or of an expression beside it, of which there is one at least.
pub(super) fn damage_nodes(random: &mut Random, sizes: [u16; 4], nodes: &mut Vec<Node>) {
    let place = random.below(nodes.len());
    match random.below(12) {
        0 => {
            nodes.pop();
        }
        9 | 11 => deepen(random, nodes),
        1 => nodes.push((*random.one(&KINDS), 0)),
        2 => {
            nodes.remove(place);
        }
        3 => nodes.insert(place, nodes[random.below(nodes.len())]),
        4 => {
            let other = random.below(nodes.len());
            nodes.swap(place, other);
        }
        5 => nodes[place].0 = *random.one(&KINDS),
        10 => retarget(random, sizes, nodes),
        6 => nodes[place].0 = random.byte(),
        7 => nodes[place].1 = random.number(),
        _ => nodes[place].1 = nodes[place].1.wrapping_add(random.within(-1, 1)),
    }
}

/// Lets an assignment or a variable's node name any variable, or one past the last.
fn retarget(random: &mut Random, [states, flows, ..]: [u16; 4], nodes: &mut [Node]) {
    let named: Vec<usize> = (0..nodes.len())
        .filter(|&place| matches!(nodes[place].0, 17 | 34))
        .collect();
    if !named.is_empty() {
        let variables = usize::from(states) + usize::from(flows);
        nodes[*random.one(&named)].1 = random.below(variables + 2) as i32 - 1;
    }
}

/// Puts blocks of one branch or negations around a node, which may pass the depth, and at times damages that node or
/// lets the nodes end there.
fn deepen(random: &mut Random, nodes: &mut Vec<Node>) {
    let place = random.below(nodes.len());
    let around = match nodes[place].0 {
        16..=19 => (19, 1),
        33 | 35..=40 | 47 => (35, 0),
        _ => return,
    };
    // Mostly so many that the node comes to stand at depth 32 or 33.
    let goal = random.between(MAX_DEPTH, MAX_DEPTH + 1);
    let count = match random.below(3) {
        0 => random.between(1, 3),
        _ => goal.saturating_sub(depths(nodes)[place]),
    };
    nodes.splice(place..place, std::iter::repeat_n(around, count));
    match random.below(6) {
        0 => nodes[place + count].0 = random.byte(),
        1 => nodes[place + count].1 = random.number(),
        2 => nodes.truncate(place + count),
        _ => {}
    }
}
