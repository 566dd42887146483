//! Inputs for the timing, in families that grow: by seeds, by pairs, by brackets.

use crate::inputs::{draft_on, join, must_read, plain_deck, rising, some_score, Draft};
use crate::random::Random;
use crate::reference::Pair;
use crate::texts::{comb_of, in_all_characters, nest_of, structure};

/// Inputs of one kind at several sizes.
pub struct Family {
    pub name: &'static str,
    /// What a size counts.
    pub unit: &'static str,
    pub sizes: &'static [usize],
    pub make: fn(&mut Random, usize) -> Vec<u8>,
}

const SEEDS: &[usize] = &[8, 16, 32, 64];

/// Small seeds, where finding the best chain costs most; then large ones, where judging them does;
/// then two of the first again, where reading takes other characters.
pub const FAMILIES: [Family; 13] = [
    family("flat", "seeds", SEEDS, flat),
    family("nested", "seeds", SEEDS, nested),
    family("comb", "seeds", SEEDS, comb),
    family("mixed", "seeds", SEEDS, mixed),
    family("seeds of one dot", "seeds", SEEDS, single_dots),
    family("seeds of three pairs", "seeds", SEEDS, three_pairs),
    family(
        "15 dots and the root",
        "seeds",
        &[1, 4, 16, 64],
        dots_and_root,
    ),
    family(
        "one seed of dots and the root",
        "pairs",
        &[2, 4, 16, 64, 256],
        one_seed,
    ),
    family(
        "all dots of a comb and the root, 12 seeds",
        "brackets",
        &[10, 20, 40, 80],
        comb_dots,
    ),
    family(
        "a dot and the root of a nest, 64 seeds",
        "brackets",
        &[16, 32, 64, 127],
        bare_nest,
    ),
    family("the slowest found by a search", "seeds", &[64], climbed),
    family("nested in WUSS", "seeds", SEEDS, nested_in_wuss),
    family("comb in WUSS", "seeds", SEEDS, comb_in_wuss),
];

const fn family(
    name: &'static str,
    unit: &'static str,
    sizes: &'static [usize],
    make: fn(&mut Random, usize) -> Vec<u8>,
) -> Family {
    Family {
        name,
        unit,
        sizes,
        make,
    }
}

fn flat(random: &mut Random, seeds: usize) -> Vec<u8> {
    row_of_seeds(random, b"(.)".repeat(85), seeds, true)
}

fn nested(random: &mut Random, seeds: usize) -> Vec<u8> {
    row_of_seeds(random, nest_of(127), seeds, true)
}

fn comb(random: &mut Random, seeds: usize) -> Vec<u8> {
    row_of_seeds(random, comb_of(85), seeds, false)
}

fn nested_in_wuss(random: &mut Random, seeds: usize) -> Vec<u8> {
    row_of_seeds(random, in_wuss(&nest_of(127)), seeds, true)
}

fn comb_in_wuss(random: &mut Random, seeds: usize) -> Vec<u8> {
    row_of_seeds(random, in_wuss(&comb_of(85)), seeds, false)
}

/// The characters have a start of their own, so that the seeds are those of the same text in dot-bracket form.
fn in_wuss(text: &[u8]) -> Vec<u8> {
    in_all_characters(&mut Random::new(1), text)
}

/// A random structure, with seeds of up to four pairs.
fn mixed(random: &mut Random, seeds: usize) -> Vec<u8> {
    let text = structure(random, 255, 35, 25);
    let mut draft = draft_on(random, text.clone(), text, seeds, 4, 7);
    draft.seeds.truncate(seeds);
    lay_out(&draft)
}

fn single_dots(random: &mut Random, seeds: usize) -> Vec<u8> {
    row_of_seeds(random, b".".repeat(255), seeds, false)
}

/// Two dots and the bracket around them.
fn three_pairs(random: &mut Random, seeds: usize) -> Vec<u8> {
    let chosen = chosen_places(random, 63, seeds.min(63));
    let seed = |place: u8| alike(3 * place..=3 * place + 2);
    seeds_at(random, b"(..)".repeat(63), &chosen, seed)
}

fn dots_and_root(random: &mut Random, seeds: usize) -> Vec<u8> {
    let lists = (0..seeds).map(|_| with_root(rising(random, 255, 15), 255));
    let lists = lists.collect();
    on_like_trees(random, b".".repeat(255), lists)
}

fn one_seed(random: &mut Random, pairs: usize) -> Vec<u8> {
    let dots = rising(random, 255, pairs - 1);
    on_like_trees(random, b".".repeat(255), vec![with_root(dots, 255)])
}

fn comb_dots(random: &mut Random, brackets: usize) -> Vec<u8> {
    let dots = (0..brackets as u8).collect();
    let seed = with_root(dots, 2 * brackets as u8);
    on_like_trees(random, comb_of(brackets), vec![seed; 12])
}

/// All brackets are unlisted span nodes.
fn bare_nest(random: &mut Random, brackets: usize) -> Vec<u8> {
    let seed = with_root(vec![0], brackets as u8 + 1);
    on_like_trees(random, nest_of(brackets), vec![seed; 64])
}

/// 255 dots and 64 seeds, most of them of 15 dots and the root.
fn climbed(_: &mut Random, _: usize) -> Vec<u8> {
    include_bytes!("../slow/climbed.input").to_vec()
}

fn alike(nodes: impl IntoIterator<Item = u8>) -> Vec<Pair> {
    nodes
        .into_iter()
        .map(|node| Pair { q: node, t: node })
        .collect()
}

fn with_root(mut nodes: Vec<u8>, root: u8) -> Vec<Pair> {
    nodes.push(root);
    alike(nodes)
}

fn chosen_places(random: &mut Random, places: usize, seeds: usize) -> Vec<u8> {
    let mut chosen = rising(random, places, seeds);
    random.shuffle(&mut chosen);
    chosen
}

/// Seeds of one node, or of two neighbouring nodes, spread over like trees without a common node.
fn row_of_seeds(random: &mut Random, text: Vec<u8>, seeds: usize, two: bool) -> Vec<u8> {
    let width = if two { 2 } else { 1 };
    let places = (must_read(&text).count - 1) / width as usize;
    let chosen = chosen_places(random, places, seeds);
    let seed = |place: u8| alike(width * place..=width * place + width - 1);
    seeds_at(random, text, &chosen, seed)
}

fn seeds_at(
    random: &mut Random,
    text: Vec<u8>,
    places: &[u8],
    seed: impl Fn(u8) -> Vec<Pair>,
) -> Vec<u8> {
    on_like_trees(
        random,
        text,
        places.iter().map(|&place| seed(place)).collect(),
    )
}

fn on_like_trees(random: &mut Random, text: Vec<u8>, lists: Vec<Vec<Pair>>) -> Vec<u8> {
    let seeds = lists.into_iter().map(|list| (some_score(random, 7), list));
    let seeds = seeds.collect();
    lay_out(&Draft {
        q: text.clone(),
        t: text,
        seeds,
    })
}

fn lay_out(draft: &Draft) -> Vec<u8> {
    join(&draft.q, &draft.t, &plain_deck(&draft.seeds))
}
