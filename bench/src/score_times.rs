//! Times the two readers and the two writers of score texts on the same texts and numbers.

use crate::random::Random;
use crate::score_library::{self, read_answer, write_answer, PRESENT};
use crate::score_texts::{any_text, some_score};
use crate::scores::{self, spelled, LONGEST, SCORE_LIMIT, TOTAL_LIMIT};
use crate::timing::{contest, print_ratios, Contestant};
use std::hint::black_box;

/// More than a processor keeps in mind of the branches it took.
const TEXTS: usize = 4_096;

/// What one row of a table is timed on.
type Row = (&'static str, Vec<Vec<u8>>);

fn row(name: &'static str, make: impl Fn(&mut Random) -> Vec<u8>) -> Row {
    let mut random = Random::new(1);
    (name, (0..TEXTS).map(|_| make(&mut random)).collect())
}

fn texts() -> Vec<Row> {
    vec![
        row("0.00 to 9.99", |random| {
            spelled(random.between(0, 999)).into()
        }),
        row("any score", |random| {
            spelled(random.between(-SCORE_LIMIT, SCORE_LIMIT)).into()
        }),
        row("any count of digits", |random| {
            spelled(some_score(random)).into()
        }),
        row("right and damaged", any_text),
    ]
}

/// A number goes as its bytes, as all that is timed does.
fn numbers() -> Vec<Row> {
    let bytes = |number: i64| number.to_ne_bytes().to_vec();
    vec![
        row("0.00 to 9.99", |random| bytes(random.between(0, 999))),
        row("any score", |random| {
            bytes(random.between(-SCORE_LIMIT, SCORE_LIMIT))
        }),
        row("any count of digits", |random| bytes(some_score(random))),
        row("any total", |random| {
            bytes(random.between(-TOTAL_LIMIT, TOTAL_LIMIT))
        }),
    ]
}

fn number_of(bytes: &[u8]) -> i64 {
    i64::from_ne_bytes(bytes.try_into().expect("a number has eight bytes"))
}

fn print_table(name: &str, rows: Vec<Row>, reference: Contestant, library: Contestant) {
    let (names, inputs): (Vec<_>, Vec<_>) = rows.into_iter().unzip();
    let times = match PRESENT {
        true => contest(&inputs, &mut [reference, library]),
        false => contest(&inputs, &mut [reference]),
    };
    print_ratios(name, &names, &times);
}

pub fn print_all() {
    print_table(
        "reading, ns a text",
        texts(),
        &mut |text| {
            black_box(read_answer(scores::read(text)));
        },
        &mut |text| {
            black_box(score_library::read(text));
        },
    );
    let (mut own, mut out) = ([0; LONGEST], [0; LONGEST]);
    print_table(
        "writing, ns a text",
        numbers(),
        &mut |bytes| {
            black_box(write_answer(scores::write(number_of(bytes), &mut own)));
        },
        &mut |bytes| {
            black_box(score_library::write(number_of(bytes), &mut out));
        },
    );
}
