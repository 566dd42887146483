//! Inputs that do not hang on chance: at the limits, every small change, every small list.

use crate::examples::{
    files_in_wuss, on_a_and_b, on_empty_texts, two_seeds, two_seeds_in_wuss, two_seeds_unlike,
};
use crate::inputs::{full_deck, join, must_read, plain_deck, texts_of};
use crate::random::Random;
use crate::reference::{read_tree, Pair};
use crate::texts::{in_all_characters, nest_of, other_kinds, texts_over, CLOSINGS, OPENINGS};

/// The inputs at the limits, every change of one byte and every cut of small ones, every change of a
/// bracket of larger ones, given texts, and seeds of unlike nodes.
pub fn fixed_inputs() -> Vec<Vec<u8>> {
    let mut inputs = vec![
        Vec::new(),
        b"\n".to_vec(),
        b"\n\n".to_vec(),
        b".\n.\n".to_vec(),
    ];
    let dots = |count| vec![b'.'; count];
    for count in [0, 1, 254, 255, 256, 257, 8192] {
        inputs.push(join(&dots(count), b".", &[0; 4]));
        inputs.push(join(b".", &dots(count), &[0; 4]));
    }
    for (seeds, pairs) in [
        (64, 64),
        (65, 65),
        (64, 1024),
        (64, 1025),
        (1, 1024),
        (1, 1025),
    ] {
        inputs.push(join(b"..", b"..", &full_deck(seeds, pairs)));
    }
    inputs.push(most_pairs());
    for small in small_inputs() {
        inputs.extend(changes_of(&small));
    }
    for input in files_in_wuss() {
        inputs.extend(changes_of_brackets(&input));
    }
    inputs.extend(given_texts().iter().flat_map(|text| as_q_and_t(text)));
    inputs.extend(one_before_the_other());
    inputs.extend(kind_against_kind());
    inputs.extend(ground_beside_ground());
    inputs
}

/// Four seeds that take all 256 nodes each: 1,024 pairs.
fn most_pairs() -> Vec<u8> {
    let all: Vec<Pair> = (0..=255).map(|node| Pair { q: node, t: node }).collect();
    join(&[b'.'; 255], &[b'.'; 255], &plain_deck(&vec![(5, all); 4]))
}

fn small_inputs() -> [Vec<u8>; 4] {
    [
        two_seeds(),
        two_seeds_unlike(),
        two_seeds_in_wuss(),
        on_empty_texts(),
    ]
}

fn changes_of(input: &[u8]) -> Vec<Vec<u8>> {
    let mut changes: Vec<Vec<u8>> = (0..input.len()).map(|end| input[..end].to_vec()).collect();
    for at in 0..input.len() {
        for byte in 0..=255 {
            changes.push(with_byte(input, at, byte));
        }
    }
    changes
}

/// An input with each bracket of its texts, one at a time, as each of the seven other brackets.
fn changes_of_brackets(input: &[u8]) -> Vec<Vec<u8>> {
    let [q, t] = texts_of(input);
    let brackets = [OPENINGS, CLOSINGS].concat();
    let mut changes = Vec::new();
    for at in 0..q.len() + 1 + t.len() {
        if brackets.contains(&input[at]) {
            let others = brackets.iter().filter(|&&byte| byte != input[at]);
            changes.extend(others.map(|&byte| with_byte(input, at, byte)));
        }
    }
    changes
}

fn with_byte(bytes: &[u8], at: usize, byte: u8) -> Vec<u8> {
    let mut changed = bytes.to_vec();
    changed[at] = byte;
    changed
}

fn as_q_and_t(text: &[u8]) -> [Vec<u8>; 2] {
    [join(text, b".", &[0; 4]), join(b"()", text, &[0; 4])]
}

/// Every byte alone, every text over few bytes up to a length, and deep texts with unlike partners.
fn given_texts() -> Vec<Vec<u8>> {
    // A line feed would end the text.
    let bytes = (0..=255).filter(|&byte| byte != b'\n');
    let mut texts: Vec<Vec<u8>> = bytes.map(|byte| vec![byte]).collect();
    texts.extend(texts_over(b".()a", 6));
    texts.extend(texts_over(b"<>()a", 5));
    texts.extend(texts_over(b"<>()[]{}", 4));
    for deep in [
        nest_of(127),
        in_all_characters(&mut Random::new(1), &nest_of(127)),
    ] {
        texts.extend(unlike_partners(&deep));
    }
    texts
}

/// A nest of 127 brackets as it is, then with unlike partners at its first closing bracket, at its last
/// one, and at both.
fn unlike_partners(nest: &[u8]) -> Vec<Vec<u8>> {
    let mut texts = vec![nest.to_vec()];
    for at in [0, 126, 128, 254] {
        let others = other_kinds(nest[at]);
        texts.extend(others.iter().map(|&byte| with_byte(nest, at, byte)));
    }
    let first_unlike = with_byte(nest, 128, other_kinds(nest[128])[0]);
    texts.push(with_byte(&first_unlike, 254, other_kinds(nest[254])[0]));
    texts
}

/// One text of each ground and accepted ones as Q and as T, before a deck that is too short.
fn one_before_the_other() -> Vec<Vec<u8>> {
    let long = [b'.'; 256];
    let texts: [&[u8]; 8] = [b"", b"<>", &long, b"a", b")", b"(", b"<)", b"{[}]"];
    let with_any_t = |q| texts.map(|t| join(q, t, &[0; 3]));
    texts.iter().flat_map(|&q| with_any_t(q)).collect()
}

/// Every pair as a seed, with one number beyond each tree, on every two of texts with all kinds of
/// nodes, unpaired bases and bracket pairs as leaves, and unlike brackets.
fn kind_against_kind() -> Vec<Vec<u8>> {
    let texts: [&[u8]; 8] = [b"", b".", b"~", b"()", b"<>", b"(.)", b"[_]", b"{<>,}-"];
    let mut inputs = Vec::new();
    for q in texts {
        for t in texts {
            let pairs = pairs_on(q, t, 1);
            inputs.extend(
                pairs
                    .iter()
                    .map(|&pair| join(q, t, &plain_deck(&[(1, vec![pair])]))),
            );
        }
    }
    inputs
}

/// On A and B two accepted lists, one for each of 15 to 19, two for 25 alone and three for 25 with 17, 18
/// and 19: every two as two seeds, with scores in range and beyond, and as one seed.
fn ground_beside_ground() -> Vec<Vec<u8>> {
    let lists: [&[(u8, u8)]; 12] = [
        &[(3, 1)],
        &[(1, 0), (3, 1)],
        &[(0, 6)],
        &[(0, 0), (0, 0)],
        &[(0, 0), (2, 1)],
        &[(0, 0), (4, 2)],
        &[(1, 0), (5, 4)],
        &[(0, 1)],
        &[(4, 0), (5, 1)],
        &[(0, 0), (1, 1)],
        &[(0, 0), (4, 3)],
        &[(2, 0), (5, 4)],
    ];
    let mut inputs = Vec::new();
    for first in lists {
        for second in lists {
            inputs.push(on_a_and_b(&[(1, &[first, second].concat())]));
            for scores in [(1, 1), (1_000_001, 1), (1, -1_000_001)] {
                inputs.push(on_a_and_b(&[(scores.0, first), (scores.1, second)]));
            }
        }
    }
    inputs
}

/// Every pair of two numbers of nodes, and of so many numbers beyond each tree.
fn pairs_on(q: &[u8], t: &[u8], beyond: usize) -> Vec<Pair> {
    let (q_end, t_end) = (must_read(q).count + beyond, must_read(t).count + beyond);
    (0..q_end)
        .flat_map(|q| (0..t_end).map(move |t| (q as u8, t as u8)))
        .map(|(q, t)| Pair { q, t })
        .collect()
}

/// Every list of one to three pairs, with two numbers beyond each tree, on every two structures of up
/// to four bytes.
pub fn small_lists(visit: &mut dyn FnMut(&[u8])) {
    let texts = small_structures(4);
    for q in &texts {
        for t in &texts {
            lists_of(&pairs_on(q, t, 2), 3, &mut Vec::new(), &mut |list| {
                visit(&join(q, t, &plain_deck(&[(1, list.to_vec())])))
            });
        }
    }
}

pub fn small_structures(longest: usize) -> Vec<Vec<u8>> {
    let mut texts = texts_over(b".()", longest);
    texts.retain(|text| read_tree(text).is_ok());
    texts
}

/// The lists that begin with `list` and have up to `more` pairs beyond it.
fn lists_of(pairs: &[Pair], more: usize, list: &mut Vec<Pair>, visit: &mut dyn FnMut(&[Pair])) {
    if more == 0 {
        return;
    }
    for &pair in pairs {
        list.push(pair);
        visit(list);
        lists_of(pairs, more - 1, list, visit);
        list.pop();
    }
}
