//! Structures as texts: random ones, given ones, all short ones, and ones that are damaged.

use crate::random::Random;

/// An opening bracket and the closing one of its kind stand at the same place.
pub const OPENINGS: [u8; 4] = *b"<([{";
pub const CLOSINGS: [u8; 4] = *b">)]}";
const UNPAIRED: [u8; 6] = *b".,:_-~";

/// A structure of just this length; `open` and `close` are chances in a hundred.
pub fn structure(random: &mut Random, length: usize, open: usize, close: usize) -> Vec<u8> {
    let mut text = Vec::with_capacity(length);
    let mut depth = 0;
    while text.len() < length {
        let rest = length - text.len();
        if rest == depth || depth > 0 && random.chance(close) {
            text.push(b')');
            depth -= 1;
        } else if rest >= depth + 2 && random.chance(open) {
            text.push(b'(');
            depth += 1;
        } else {
            text.push(b'.');
        }
    }
    text
}

fn some_length(random: &mut Random) -> usize {
    match random.below(10) {
        0..=3 => random.size(0, 14),
        4..=6 => random.size(10, 70),
        7..=8 => random.size(60, 255),
        _ => 255,
    }
}

fn some_structure(random: &mut Random, length: usize) -> Vec<u8> {
    // Flat, mixed, many empty pairs, deep, one nest, only dots.
    let (open, close) = random.pick(&[
        (10, 40),
        (35, 25),
        (50, 50),
        (70, 8),
        (97, 0),
        (0, 0),
        (40, 12),
    ]);
    structure(random, length, open, close)
}

/// A text that is nearly the given one.
fn near_structure(random: &mut Random, text: &[u8]) -> Vec<u8> {
    let mut near = text.to_vec();
    for _ in 0..random.size(1, 4) {
        let at = random.below(near.len() + 1);
        if near.len() < 255 && random.chance(60) {
            near.insert(at, b'.');
        } else if at < near.len() && near[at] == b'.' {
            near.remove(at);
        }
    }
    near
}

pub fn some_texts(random: &mut Random) -> (Vec<u8>, Vec<u8>) {
    let length = some_length(random);
    let q = some_structure(random, length);
    let t = match random.below(10) {
        0..=4 => q.clone(),
        5..=6 => near_structure(random, &q),
        _ => {
            let length = some_length(random);
            some_structure(random, length)
        }
    };
    (q, t)
}

/// A structure of dots and round brackets with each pair and each dot written anew, in some of the
/// kinds and of the unpaired characters.
fn written_in(random: &mut Random, text: &[u8], kinds: &[usize], unpaired: &[u8]) -> Vec<u8> {
    let mut open = Vec::new();
    let byte_for = |byte: &u8| match byte {
        b'(' => {
            let kind = random.pick(kinds);
            open.push(kind);
            OPENINGS[kind]
        }
        b')' => CLOSINGS[open.pop().expect("a structure closes what is open")],
        _ => random.pick(unpaired),
    };
    text.iter().map(byte_for).collect()
}

/// In all kinds of brackets and all unpaired characters.
pub fn in_all_characters(random: &mut Random, text: &[u8]) -> Vec<u8> {
    written_in(random, text, &[0, 1, 2, 3], &UNPAIRED)
}

/// Mostly in all of them, else in few.
pub fn in_some_characters(random: &mut Random, text: &[u8]) -> Vec<u8> {
    let (mut kinds, mut unpaired) = ([0, 1, 2, 3], UNPAIRED);
    random.shuffle(&mut kinds);
    random.shuffle(&mut unpaired);
    let (few_kinds, few_unpaired) = (random.pick(&[1, 2, 4, 4]), random.pick(&[1, 2, 6, 6]));
    written_in(random, text, &kinds[..few_kinds], &unpaired[..few_unpaired])
}

/// Writes up to so many leaves of a structure as the other kind: a dot as a bracket pair around nothing,
/// and the other way round.
pub fn exchange_leaves(random: &mut Random, text: &mut Vec<u8>, count: usize) {
    for _ in 0..count.min(text.len()) {
        let at = random.below(text.len());
        let closes = |byte: &u8| CLOSINGS.contains(byte);
        if UNPAIRED.contains(&text[at]) && text.len() < 255 {
            text.splice(at..=at, *b"()");
        } else if OPENINGS.contains(&text[at]) && text.get(at + 1).is_some_and(closes) {
            text.splice(at..=at + 1, *b".");
        }
    }
}

/// How many kinds of brackets open in a text.
pub fn kinds_in(text: &[u8]) -> usize {
    OPENINGS.iter().filter(|byte| text.contains(byte)).count()
}

/// Whether a text has nothing but dots and round brackets.
pub fn in_dot_bracket(text: &[u8]) -> bool {
    text.iter().all(|byte| b".()".contains(byte))
}

pub fn nest_of(brackets: usize) -> Vec<u8> {
    [b"(".repeat(brackets), b".".to_vec(), b")".repeat(brackets)].concat()
}

pub fn comb_of(brackets: usize) -> Vec<u8> {
    [b"(.".repeat(brackets), b")".repeat(brackets)].concat()
}

/// Every text over some bytes up to a length, the empty one first.
pub fn texts_over(bytes: &[u8], longest: usize) -> Vec<Vec<u8>> {
    let mut all: Vec<Vec<u8>> = vec![Vec::new()];
    let mut at = 0;
    while all[at].len() < longest {
        for &byte in bytes {
            let longer = [&all[at][..], &[byte]].concat();
            all.push(longer);
        }
        at += 1;
    }
    all
}

/// The brackets of the other kinds on the same side; none for a byte that is no bracket.
pub fn other_kinds(byte: u8) -> Vec<u8> {
    let sides = [OPENINGS, CLOSINGS].into_iter();
    let side = sides.filter(|side| side.contains(&byte)).flatten();
    side.filter(|&other| other != byte).collect()
}

// ---- damage: grounds 1 to 4 and 24 ----

/// Letters, control characters, and what lies next to the bytes that are not refused.
const REFUSED: &[u8] = b"aABzZuG \0\r\t\xFF\x7F\x80'*+/;=@\\^`|";

pub fn damage_text(random: &mut Random, text: &mut Vec<u8>) {
    // An empty text has no byte to spoil.
    if text.is_empty() {
        text.push(b'.');
    }
    let at = random.below(text.len());
    match random.below(20) {
        // A structure all the same, but mostly not the seeds'.
        0 => text.clear(),
        1 | 2 => text.resize(random.size(256, 300), b'.'),
        3 | 4 => text[at] = random.pick(REFUSED),
        5 => text[at] = random.byte(),
        6 | 7 => text[at] = random.pick(&CLOSINGS),
        8 | 9 => text[at] = random.pick(&OPENINGS),
        10 | 11 => text.insert(at, random.pick(&CLOSINGS)),
        12 | 13 => text.insert(at, random.pick(&OPENINGS)),
        14 => *text = any_bytes(random),
        15 => exchange_brackets(random, text, 2),
        _ => exchange_brackets(random, text, 1),
    }
}

fn any_bytes(random: &mut Random) -> Vec<u8> {
    let length = random.size(1, 12);
    let bytes = random.pick(&[b"..(()))a", b"<>()[]{}", b"<<>>()_;"]);
    (0..length).map(|_| random.pick(bytes)).collect()
}

/// Writes so many brackets as others on the same side; a text without brackets gets a pair first.
fn exchange_brackets(random: &mut Random, text: &mut Vec<u8>, count: usize) {
    if kinds_in(text) == 0 {
        text.insert(0, b'(');
        text.push(b')');
    }
    let brackets: Vec<usize> = (0..text.len())
        .filter(|&at| !other_kinds(text[at]).is_empty())
        .collect();
    for _ in 0..count {
        let at = random.pick(&brackets);
        text[at] = random.pick(&other_kinds(text[at]));
    }
}
