//! Seeds of the same nodes in two like texts, at growing sizes.

use crate::inputs::{join, plain_deck};
use crate::reference::Pair;
use crate::texts::{comb_of, nest_of};

/// Inputs of one kind, up to a size.
pub struct Family {
    pub name: &'static str,
    pub largest: u8,
    pub make: fn(u8) -> Vec<u8>,
}

pub const FAMILIES: [Family; 4] = [
    Family {
        name: "dots of a strand, the root alone",
        largest: 255,
        make: strand,
    },
    Family {
        name: "brackets of a nest, all nodes",
        largest: 127,
        make: nest,
    },
    Family {
        name: "brackets of a comb, without its dots",
        largest: 85,
        make: comb,
    },
    Family {
        name: "dots of a strand, every second",
        largest: 255,
        make: gaps,
    },
];

fn alike(text: &[u8], nodes: impl Iterator<Item = u8>) -> Vec<u8> {
    let pairs = nodes.map(|node| Pair { q: node, t: node }).collect();
    join(text, text, &plain_deck(&[(1, pairs)]))
}

/// All dots are in one area.
fn strand(dots: u8) -> Vec<u8> {
    alike(&b".".repeat(dots as usize), std::iter::once(dots))
}

/// There is no area.
fn nest(brackets: u8) -> Vec<u8> {
    alike(&nest_of(brackets as usize), 0..brackets + 2)
}

/// An area of one dot under each bracket.
fn comb(brackets: u8) -> Vec<u8> {
    alike(&comb_of(brackets as usize), brackets..=2 * brackets)
}

/// An area of one dot between each two pairs, all under the root.
fn gaps(dots: u8) -> Vec<u8> {
    let paired = (1..dots).step_by(2);
    alike(&b".".repeat(dots as usize), paired.chain([dots]))
}
