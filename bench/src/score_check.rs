//! Holds the library's reader and writer of score texts to the reference's, and both to the request.

use crate::random::Random;
use crate::reference::{print_chain, Chain};
use crate::score_library::{self, read_answer, write_answer, PRESENT};
use crate::score_texts::{any_text, near_texts, texts_from, BYTES};
use crate::scores::{self, is_beyond, spelled, LONGEST, SCORE_LIMIT, TOTAL_LIMIT};
use crate::{fail, hex, score_times};
use std::ops::RangeInclusive;
use std::process::exit;

/// What the memory for a text holds before a call; no text has this byte.
const DIRT: u8 = 0xA5;
/// A text is written with every room up to here, in memory that goes further on both sides.
const ROOM: usize = LONGEST + 2;
const BEFORE: usize = 4;
const MEMORY: usize = BEFORE + 2 * ROOM;
/// How many numbers near a bound are taken on each side of it.
const NEAR: i64 = 2_000;
/// All texts over `BYTES` up to this length take about half a minute; all scores but one are among them.
const SHORT: usize = 8;

/// What is counted, each of which must come up.
const OUTCOMES: [&str; 5] = [
    "read",
    "written",
    "refused with 11",
    "refused with 22",
    "refused with 23",
];
const READ: usize = 0;
const WRITTEN: usize = 1;

fn refusal(ground: u8) -> usize {
    match ground {
        11 => 2,
        22 => 3,
        23 => 4,
        _ => unreachable!("a score text meets no other ground"),
    }
}

/// What a writer answers and leaves in the memory.
type Written = (i64, [u8; MEMORY]);

struct Checker {
    counts: [usize; OUTCOMES.len()],
}

impl Checker {
    /// One text: the reference accepts only what would be written.
    fn text(&mut self, text: &[u8]) {
        let own = scores::read(text);
        if own.is_ok_and(|number| spelled(number).as_bytes() != text) {
            fail("the reference accepts what is not written so", text);
        }
        self.hold_read(text, own);
    }

    /// One text with what reading it must answer.
    fn text_as(&mut self, text: &[u8], expected: Result<i64, u8>) {
        let own = scores::read(text);
        if own != expected {
            differ_read("the reference", text, expected, read_answer(own));
        }
        self.hold_read(text, expected);
    }

    fn hold_read(&mut self, text: &[u8], expected: Result<i64, u8>) {
        if PRESENT {
            let found = score_library::read(text);
            if found != read_answer(expected) {
                differ_read("the library", text, expected, found);
            }
        }
        self.counts[expected.map_or_else(refusal, |_| READ)] += 1;
    }

    /// One number: written with every room, and its text read back.
    fn number(&mut self, number: i64) {
        let text = spelled(number);
        for room in 0..=ROOM {
            self.write(number, text.as_bytes(), room);
        }
        let in_bounds = !is_beyond(number, SCORE_LIMIT);
        self.text_as(text.as_bytes(), in_bounds.then_some(number).ok_or(23));
    }

    fn write(&mut self, number: i64, text: &[u8], room: usize) {
        let length = written_length(number, text, room);
        let expected = written(room, |out| {
            out[..length.unwrap_or(0)].copy_from_slice(&text[..length.unwrap_or(0)]);
            write_answer(length)
        });
        let own = written(room, |out| write_answer(scores::write(number, out)));
        if own != expected {
            differ_write("the reference", number, room, expected, own);
        }
        if PRESENT {
            let found = written(room, |out| score_library::write(number, out));
            if found != expected {
                differ_write("the library", number, room, expected, found);
            }
        }
        self.counts[length.map_or_else(refusal, |_| WRITTEN)] += 1;
    }

    /// One part of the comparison, with a line that says what came up in it.
    fn part(&mut self, name: &str, check: impl FnOnce(&mut Checker)) {
        let before = self.counts;
        check(self);
        let counts: Vec<String> = (0..OUTCOMES.len())
            .filter(|&at| self.counts[at] > before[at])
            .map(|at| format!("{} {}", self.counts[at] - before[at], OUTCOMES[at]))
            .collect();
        println!("{name}: {}", counts.join(", "));
    }

    /// An outcome that never came up would be left unchecked.
    fn fail_if_missing(&self) {
        for (outcome, count) in OUTCOMES.iter().zip(self.counts) {
            if count == 0 {
                println!("{outcome}: never");
                exit(1);
            }
        }
    }
}

/// The request's words: 11 for a number beyond the totals, then 22 for too little room.
fn written_length(number: i64, text: &[u8], room: usize) -> Result<usize, u8> {
    if is_beyond(number, TOTAL_LIMIT) {
        Err(11)
    } else if room < text.len() {
        Err(22)
    } else {
        Ok(text.len())
    }
}

/// Lends so many bytes amid dirty memory to a writer.
fn written(room: usize, write: impl FnOnce(&mut [u8]) -> i64) -> Written {
    let mut memory = [DIRT; MEMORY];
    let answer = write(&mut memory[BEFORE..BEFORE + room]);
    (answer, memory)
}

fn differ_read(who: &str, text: &[u8], expected: Result<i64, u8>, found: i64) -> ! {
    println!("expected: {}\nfound: {found}", read_answer(expected));
    fail(&format!("a difference in reading a score: {who}"), text)
}

fn differ_write(who: &str, number: i64, room: usize, expected: Written, found: Written) -> ! {
    println!(
        "expected: {}, memory, hex: {}",
        expected.0,
        hex(&expected.1)
    );
    println!("found: {}, memory, hex: {}", found.0, hex(&found.1));
    let what = format!("a difference in writing {number} to {room} bytes: {who}");
    fail(&what, spelled(number).as_bytes())
}

fn check_examples(checker: &mut Checker) {
    for (text, expected) in scores::read_examples() {
        checker.text_as(&text, expected);
    }
    for (number, expected) in scores::WRITTEN_EXAMPLES {
        // The examples stand above the spelling that all else is held to.
        let text = spelled(number);
        let length = written_length(number, text.as_bytes(), ROOM);
        if length != expected.map(str::len) || expected.is_ok_and(|example| example != text) {
            fail("an example of writing a score", text.as_bytes());
        }
        checker.number(number);
    }
}

fn check_scores(checker: &mut Checker) {
    (-SCORE_LIMIT..=SCORE_LIMIT).for_each(|number| checker.number(number));
}

/// Both sides of zero.
fn check_numbers(checker: &mut Checker, numbers: impl Iterator<Item = i64>) {
    for number in numbers {
        checker.number(number);
        checker.number(-number);
    }
}

fn near(bound: i64) -> RangeInclusive<i64> {
    bound - NEAR..=bound + NEAR
}

fn check_totals(checker: &mut Checker) {
    check_numbers(checker, (0..=TOTAL_LIMIT).step_by(97));
    check_numbers(checker, near(SCORE_LIMIT).chain(near(TOTAL_LIMIT)));
    check_numbers(checker, near(100_000).chain(near(10_000_000)));
}

/// Numbers that look like a score once cut to fewer bits, those around powers of two and at the ends,
/// random ones.
fn check_beyond(checker: &mut Checker, start: u64) {
    let mut random = Random::new(start);
    for bit in 26..63 {
        let power = 1 << bit;
        check_numbers(checker, (-2..=2).map(|step| power + step));
        check_numbers(checker, [power + 432, power + SCORE_LIMIT].into_iter());
    }
    for step in 0..NEAR {
        checker.number(i64::MIN + step);
        checker.number(i64::MAX - step);
    }
    (0..100_000).for_each(|_| checker.number(random.next() as i64));
}

fn check_short(checker: &mut Checker, bytes: &[u8], longest: usize) {
    let name = format!(
        "texts of up to {longest} bytes over `{}`",
        String::from_utf8_lossy(bytes)
    );
    checker.part(&name, |checker| {
        texts_from(bytes, longest, &mut Vec::new(), &mut |text| {
            checker.text(text)
        });
    });
}

fn check_near(checker: &mut Checker) {
    near_texts().iter().for_each(|text| checker.text(text));
}

fn check_random(checker: &mut Checker, count: usize, start: u64) {
    let mut random = Random::new(start);
    (0..count).for_each(|_| checker.text(&any_text(&mut random)));
}

/// The printed line has the total as the writer writes it.
fn check_lines() {
    for total in (0..=TOTAL_LIMIT).step_by(997) {
        let lines = print_chain(Chain { total, mask: 0 });
        if lines != format!("score {}\nchain\n", spelled(total)).as_bytes() {
            fail("a printed score", &lines);
        }
    }
}

/// All parts, with so many random texts, then the times.
pub fn run(count: usize, start: u64) {
    match PRESENT {
        true => println!("comparing the library's score texts with the reference's"),
        false => {
            println!("the library's score texts are missing: the reference checks only itself")
        }
    }
    let mut checker = Checker {
        counts: [0; OUTCOMES.len()],
    };
    check_lines();
    checker.part("examples", check_examples);
    checker.part("all scores, with every room", check_scores);
    checker.part("totals, with every room", check_totals);
    checker.part("numbers beyond, with every room", |checker| {
        check_beyond(checker, start)
    });
    check_short(&mut checker, BYTES, SHORT);
    check_short(&mut checker, b"-019.", 10);
    checker.part("changes of one byte, and long texts", check_near);
    checker.part(&format!("random texts from {start}"), |checker| {
        check_random(checker, count, start)
    });
    checker.fail_if_missing();
    score_times::print_all();
}
