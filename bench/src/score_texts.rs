//! Texts to be read as scores: all over few bytes, all that are nearly right, and random ones.

use crate::random::Random;
use crate::scores::{spelled, SCORE_LIMIT, TOTAL_LIMIT};

/// What score texts are made of, and what is easily taken for it.
pub const BYTES: &[u8] = b"-+0123456789. ,";
/// The bytes of the longest random text.
const LONGEST: usize = 12;

/// Every text over some bytes that begins with `text` and has up to `more` bytes beyond it.
pub fn texts_from(bytes: &[u8], more: usize, text: &mut Vec<u8>, visit: &mut dyn FnMut(&[u8])) {
    visit(text);
    if more == 0 {
        return;
    }
    for &byte in bytes {
        text.push(byte);
        texts_from(bytes, more - 1, text, visit);
        text.pop();
    }
}

/// Texts of every length and sign with every byte changed, left out or put in, and long ones.
pub fn near_texts() -> Vec<Vec<u8>> {
    let mut texts = Vec::new();
    for size in [
        0, 1, 99, 100, 1_234, 98_765, 987_654, 1_000_000, 1_000_001, 64_000_000,
    ] {
        texts.extend(changes_of(spelled(size).as_bytes()));
        texts.extend(changes_of(spelled(-size).as_bytes()));
    }
    texts.extend(changes_of(b"-0.00"));
    for count in 1..=300 {
        texts.push(["1", &"0".repeat(count), ".00"].concat().into());
        texts.push(["0".repeat(count).as_str(), "1.00"].concat().into());
        texts.push(["1.00", &"0".repeat(count)].concat().into());
        texts.push("7".repeat(count).into());
        texts.push("-".repeat(count).into());
        texts.push(".".repeat(count).into());
    }
    texts
}

fn changes_of(text: &[u8]) -> Vec<Vec<u8>> {
    let mut changes = vec![text.to_vec()];
    for at in 0..=text.len() {
        let (before, after) = text.split_at(at);
        let rest = after.get(1..).unwrap_or(&[]);
        changes.push([before, rest].concat());
        for byte in 0..=255 {
            changes.push([before, &[byte], rest].concat());
            changes.push([before, &[byte], after].concat());
        }
    }
    changes
}

/// Any text of up to 12 bytes: a third are written scores, most others are damaged ones.
pub fn any_text(random: &mut Random) -> Vec<u8> {
    let mut text = match random.below(12) {
        0..=8 => spelled(some_score(random)).into_bytes(),
        9 => spelled(random.between(-TOTAL_LIMIT, TOTAL_LIMIT)).into_bytes(),
        10 => some_bytes(random, |random| random.pick(BYTES)),
        _ => some_bytes(random, |random| random.byte()),
    };
    if random.chance(60) {
        damage(random, &mut text);
        if random.chance(30) {
            damage(random, &mut text);
        }
    }
    text.truncate(LONGEST);
    text
}

/// A score of any count of digits, or one near a bound, inside or beyond.
pub fn some_score(random: &mut Random) -> i64 {
    let limit = random.pick(&[9, 99, 999, 9_999, 99_999, SCORE_LIMIT, SCORE_LIMIT]);
    match random.below(10) {
        0 => random.pick(&[-1, 1]) * random.between(SCORE_LIMIT - 20, SCORE_LIMIT + 20),
        _ => random.between(-limit, limit),
    }
}

fn some_bytes(random: &mut Random, byte: impl Fn(&mut Random) -> u8) -> Vec<u8> {
    let length = random.size(0, LONGEST);
    (0..length).map(|_| byte(random)).collect()
}

fn damage(random: &mut Random, text: &mut Vec<u8>) {
    // An empty text has no byte to spoil.
    if text.is_empty() {
        text.push(b'0');
    }
    let at = random.below(text.len());
    let first_digit = text.starts_with(b"-") as usize;
    match random.below(12) {
        0 => text[at] = random.byte(),
        1 | 2 => text[at] = random.pick(BYTES),
        3 => text.insert(at, random.byte()),
        4 => text.insert(at, random.pick(BYTES)),
        5 => text.push(random.pick(BYTES)),
        6 => text.insert(first_digit, b'0'),
        7 => text.insert(0, b'-'),
        8 => text.truncate(at),
        9 => text[at..].reverse(),
        _ => drop(text.remove(at)),
    }
}
