//! The examples of open areas that documents 01 and 02 give or allow to be told by hand.

use crate::areas::{Area, Order};
use crate::examples::{input, A, B};

/// An input, an order, and the areas of its one seed in that order.
pub type Example = (Vec<u8>, Order, &'static [Area]);

const COMB: &[u8] = b".(.).(.).";

fn on_a_and_b() -> Vec<u8> {
    input(A, B, &[(1, &[(3, 1), (5, 4)])])
}

/// Both brackets and the root: areas of one dot each, in the brackets and around them.
fn on_combs() -> Vec<u8> {
    input(COMB, COMB, &[(1, &[(2, 2), (5, 5), (7, 7)])])
}

/// A bracket whose dots are in a gap, beside one that has none in T.
fn on_one_border() -> Vec<u8> {
    input(b"(..)(.)", b"(.)()", &[(1, &[(2, 1), (4, 2), (5, 3)])])
}

/// An unpaired bracket of Q around both pairs, whose areas are those under them.
fn around_an_inner_node() -> Vec<u8> {
    input(b"((.)(.))", b"(..)(.)", &[(1, &[(1, 2), (3, 4), (5, 5)])])
}

const A_AND_B: &[Area] = &[[0, 2, 0, 0], [4, 4, 2, 3]];
const COMBS: &[Area] = &[
    [0, 0, 0, 0],
    [1, 1, 1, 1],
    [3, 3, 3, 3],
    [4, 4, 4, 4],
    [6, 6, 6, 6],
];
/// Under each bracket, then under the root from right to left.
const COMBS_IN_PAPER_ORDER: &[Area] = &[
    [1, 1, 1, 1],
    [4, 4, 4, 4],
    [6, 6, 6, 6],
    [3, 3, 3, 3],
    [0, 0, 0, 0],
];

pub fn all() -> Vec<Example> {
    vec![
        (on_a_and_b(), Order::RisingA, A_AND_B),
        (on_a_and_b(), Order::Paper, A_AND_B),
        (on_combs(), Order::RisingA, COMBS),
        (on_combs(), Order::Paper, COMBS_IN_PAPER_ORDER),
        (on_one_border(), Order::Paper, &[[0, 1, 0, 0]]),
        (
            around_an_inner_node(),
            Order::Paper,
            &[[0, 0, 0, 1], [2, 2, 3, 3]],
        ),
        (input(b"", b"", &[(1, &[(0, 0)])]), Order::Paper, &[]),
    ]
}
