//! The examples of documents 01 and 02 that the printed lines can show, with what they print.

use crate::inputs::join;
use crate::kinds;
use crate::reference::read_tree;

pub const A: &[u8] = b"(.(.)).";
pub const B: &[u8] = b"(.)(.)";
/// The deck example of document 01; its second seed is of unlike nodes.
const DECK: [u8; 24] = [
    2, 0, 0, 2, 0, 0, 0, 3, 0, 1, 0, 0, 0, 2, 0, 2, 2, 1, 0, 0, 4, 3, 0, 0,
];
/// The same with (4,2) as the second seed.
const LIKE_DECK: [u8; 24] = [
    2, 0, 0, 2, 0, 0, 0, 3, 0, 1, 0, 0, 0, 2, 0, 2, 2, 1, 0, 0, 4, 2, 0, 0,
];

pub type Seed<'a> = (i32, &'a [(u8, u8)]);

/// An input with its lines.
pub type Row = (Vec<u8>, &'static str);

const NOTHING: &str = "score 0.00\nchain\n";

/// Q, T and the seeds in plain form.
pub fn input(q: &[u8], t: &[u8], seeds: &[Seed]) -> Vec<u8> {
    let count: usize = seeds.iter().map(|seed| seed.1.len()).sum();
    let mut bytes = [
        q,
        b"\n",
        t,
        b"\n",
        &[seeds.len() as u8, 0],
        &(count as u16).to_be_bytes(),
    ]
    .concat();
    let mut first = 1u16;
    for (score, pairs) in seeds {
        bytes.extend(score.to_be_bytes());
        bytes.extend(first.to_be_bytes());
        first += pairs.len() as u16;
    }
    let mut number = 0u16;
    for (_, pairs) in seeds {
        for (at, pair) in pairs.iter().enumerate() {
            number += 1;
            let next = if at + 1 < pairs.len() { number + 1 } else { 0 };
            bytes.extend([pair.0, pair.1]);
            bytes.extend(next.to_be_bytes());
        }
    }
    bytes
}

/// Two seeds of like nodes on A and B.
pub fn two_seeds() -> Vec<u8> {
    join(A, B, &LIKE_DECK)
}

/// The deck of document 01 behind A and B.
pub fn two_seeds_unlike() -> Vec<u8> {
    join(A, B, &DECK)
}

/// Two seeds of like nodes with A and B written in all kinds of brackets and five unpaired characters.
pub fn two_seeds_in_wuss() -> Vec<u8> {
    join(b"<_[-]>:", b"{~}(,)", &LIKE_DECK)
}

/// One seed on the added roots of two empty texts.
pub fn on_empty_texts() -> Vec<u8> {
    input(b"", b"", &[(5, &[(0, 0)])])
}

/// Seeds on A and B.
pub fn on_a_and_b(seeds: &[Seed]) -> Vec<u8> {
    input(A, B, seeds)
}

pub fn one(score: i32, pairs: &[(u8, u8)]) -> Vec<u8> {
    on_a_and_b(&[(score, pairs)])
}

/// The five seeds of document 01, of which the second is of unlike nodes.
const FIVE: [Seed; 5] = [
    (3, &[(2, 1)]),
    (2, &[(4, 3)]),
    (1, &[(1, 0)]),
    (3, &[(3, 1)]),
    (-1, &[(0, 2)]),
];

/// The four that are left, with a score for the third.
fn four(third: i32) -> Vec<u8> {
    let seeds = [FIVE[0], FIVE[2], (third, FIVE[3].1), FIVE[4]];
    on_a_and_b(&seeds)
}

fn text(q: &[u8]) -> Vec<u8> {
    input(q, b".", &[])
}

/// Inputs with their lines.
pub fn all() -> Vec<Row> {
    [
        of_a_and_b(),
        in_hundredths(),
        on_one_text(),
        how_open_questions_are_read(),
        without_structure(),
        in_wuss(),
        judged_before_the_rest(),
        kinds::examples(),
        from_files(),
    ]
    .concat()
}

fn of_a_and_b() -> Vec<Row> {
    vec![
        (one(1, &[(2, 0), (5, 4)]), "refused 25 seed 1\n"),
        (one(1, &[(0, 0), (1, 1)]), "refused 25 seed 1\n"),
        (one(1, &[(0, 0), (2, 1)]), "refused 17 seed 1\n"),
        (one(1, &[(0, 0), (4, 2)]), "refused 18 seed 1\n"),
        (one(1, &[(1, 0), (5, 4)]), "refused 19 seed 1\n"),
        (one(1, &[(1, 0), (3, 1)]), "score 0.01\nchain 1\n"),
        (one(1, &[(3, 1), (5, 4)]), "score 0.01\nchain 1\n"),
        (on_a_and_b(&[]), NOTHING),
        (one(0, &[(0, 0)]), NOTHING),
        (one(-1, &[(0, 0)]), NOTHING),
        (on_a_and_b(&FIVE), "refused 25 seed 2\n"),
        (four(3), "score 0.04\nchain 1 2\n"),
        (four(4), "score 0.05\nchain 2 3\n"),
        // Seed 2 withdrawn: the deck goes without it, so 3 is 2 here.
        (
            on_a_and_b(&[FIVE[0], (4, FIVE[3].1), FIVE[4]]),
            "score 0.04\nchain 2\n",
        ),
        (two_seeds_unlike(), "refused 25 seed 2\n"),
        (two_seeds(), "score 0.05\nchain 1 2\n"),
        (one(1_000_000, &[(0, 0)]), "score 10000.00\nchain 1\n"),
        (one(1_000_001, &[(0, 0)]), "refused 11 seed 1\n"),
    ]
}

/// Document 02, a: totals around each new digit, and the greatest one.
fn in_hundredths() -> Vec<Row> {
    let total = |score| one(score, &[(0, 0)]);
    let dots = [b'.'; 64];
    let pairs: Vec<[(u8, u8); 1]> = (0..64).map(|dot| [(dot, dot)]).collect();
    let greatest: Vec<Seed> = pairs.iter().map(|pair| (1_000_000, &pair[..])).collect();
    vec![
        (total(9), "score 0.09\nchain 1\n"),
        (total(10), "score 0.10\nchain 1\n"),
        (total(99), "score 0.99\nchain 1\n"),
        (total(100), "score 1.00\nchain 1\n"),
        (total(432), "score 4.32\nchain 1\n"),
        (total(999_999), "score 9999.99\nchain 1\n"),
        (
            input(&dots, &dots, &greatest),
            "score 640000.00\nchain 1 2 3 4 5 6 7 8 9 10 11 12 13 14 15 16 17 18 19 20 21 22 \
            23 24 25 26 27 28 29 30 31 32 33 34 35 36 37 38 39 40 41 42 43 44 45 46 47 48 49 \
            50 51 52 53 54 55 56 57 58 59 60 61 62 63 64\n",
        ),
    ]
}

fn on_one_text() -> Vec<Row> {
    vec![
        (text(&[b'.'; 255]), NOTHING),
        (text(&[b'.'; 256]), "refused 1 Q 0\n"),
        (text(b")a"), "refused 2 Q 1\n"),
        (text(b"("), "refused 4 Q 0\n"),
    ]
}

fn how_open_questions_are_read() -> Vec<Row> {
    vec![
        (text(b"(()"), "refused 4 Q 0\n"),
        (text(b"()("), "refused 4 Q 2\n"),
        (text(b")("), "refused 3 Q 0\n"),
        (b"..\n.".to_vec(), "refused 5\n"),
        (b".\n.\n\0\0\0\0\n".to_vec(), "refused 5\n"),
        (b".\n.\n\0\0\0\x01\0\0\0\0".to_vec(), "refused 8\n"),
    ]
}

/// Document 02, f.
fn without_structure() -> Vec<Row> {
    vec![
        (b"".to_vec(), "refused 5\n"),
        (b".".to_vec(), "refused 5\n"),
        (b".\n".to_vec(), "refused 5\n"),
        (b"\n\n".to_vec(), "refused 5\n"),
        (b"(".to_vec(), "refused 4 Q 0\n"),
        (input(b"", &[b'.'; 256], &[]), "refused 1 T 0\n"),
        (input(b"", b"", &[]), NOTHING),
        (on_empty_texts(), "score 0.05\nchain 1\n"),
        // Both seeds take the only node.
        (
            input(b"", b"", &[(5, &[(0, 0)]), (7, &[(0, 0)])]),
            "score 0.07\nchain 2\n",
        ),
        (
            input(b"", b".", &[(1, &[(0, 1)]), (1, &[(0, 1)])]),
            "score 0.01\nchain 1\n",
        ),
        (
            input(b"", b"(.)", &[(3, &[(0, 2)])]),
            "score 0.03\nchain 1\n",
        ),
        (input(b"", b".", &[(1, &[(1, 0)])]), "refused 15 seed 1\n"),
    ]
}

/// Document 02, b: partners are found blind to the kind, and 24 comes after 2, 3 and 4.
fn in_wuss() -> Vec<Row> {
    vec![
        (text(b"<<<___>>>,,(((...)))::~~--"), NOTHING),
        (text(b"<([{.,:_-~}])>"), NOTHING),
        (two_seeds_in_wuss(), "score 0.05\nchain 1 2\n"),
        (text(b"(<)"), "refused 4 Q 0\n"),
        (text(b"<)"), "refused 24 Q 1\n"),
        (text(b"(]"), "refused 24 Q 1\n"),
        (text(b"[(])"), "refused 24 Q 2\n"),
        (text(b"<(>)a"), "refused 2 Q 4\n"),
        (text(b"<A>a"), "refused 2 Q 1\n"),
        (text(b")<"), "refused 3 Q 0\n"),
        (text(b"<)}"), "refused 3 Q 2\n"),
        (text(b"<){"), "refused 4 Q 2\n"),
    ]
}

/// Q by all grounds of a text before T, and both before the deck.
fn judged_before_the_rest() -> Vec<Row> {
    vec![
        (input(b"<)", b"(", &[]), "refused 24 Q 1\n"),
        (input(b"<)", &[b'.'; 256], &[]), "refused 24 Q 1\n"),
        (input(b"<>", b"[_)", &[]), "refused 24 T 2\n"),
        (b"<)".to_vec(), "refused 24 Q 1\n"),
        (b"<>\n{-)\n\x01".to_vec(), "refused 24 T 2\n"),
    ]
}

/// The inputs of the directory of examples that stand there in dots and round brackets and in WUSS.
fn from_files() -> Vec<Row> {
    let (trna, ribosomal) = (
        "score 2.54\nchain 1 2 3 4\n",
        "score 4.51\nchain 1 2 3 4 6 7 8 9 11 15\n",
    );
    let [trna_in_wuss, ribosomal_in_wuss] = files_in_wuss();
    vec![
        (include_bytes!("../../examples/tRNA.input").to_vec(), trna),
        (trna_in_wuss, trna),
        (
            include_bytes!("../../examples/5S_rRNA.input").to_vec(),
            ribosomal,
        ),
        (ribosomal_in_wuss, ribosomal),
    ]
}

pub fn files_in_wuss() -> [Vec<u8>; 2] {
    [
        include_bytes!("../../examples/tRNA_wuss.input").to_vec(),
        include_bytes!("../../examples/5S_rRNA_wuss.input").to_vec(),
    ]
}

/// The leftmost leaves of A and B.
pub fn leftmost_leaves_are_right() -> bool {
    let leaves = |text| {
        read_tree(text)
            .map(|tree| tree.leftmost[..tree.count].to_vec())
            .ok()
    };
    leaves(A) == Some(vec![0, 1, 1, 0, 4, 0]) && leaves(B) == Some(vec![0, 0, 2, 2, 0])
}

/// Of the texts of one byte six are a structure, four close nothing, four are never closed.
pub fn texts_of_one_byte_are_right() -> bool {
    let count = |refusal| {
        let bytes = 0..=255;
        bytes
            .filter(|&byte| read_tree(&[byte]).err() == refusal)
            .count()
    };
    [None, Some((2, 0)), Some((3, 0)), Some((4, 0))].map(count) == [6, 242, 4, 4]
}
