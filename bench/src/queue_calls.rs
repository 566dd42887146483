//! One list of calls made on a queue, with dirty memory lent that is looked at afterwards.

use crate::hex;
use crate::queue_library::{self, PRESENT};
use crate::queue_records::{answer_all, calls_of, spelled, RECORD};
use crate::queues::{Plain, Quick};

/// What the memory holds before a call; an answer begins with another byte.
const DIRT: u8 = 0xA5;
const BEFORE: usize = 4;
const BEHIND: usize = 2 * RECORD;

/// How many calls were made, and the memory afterwards.
type Left = (usize, Vec<u8>);

/// Lends so many bytes amid dirty memory.
fn written(room: usize, make: impl FnOnce(&mut [u8]) -> usize) -> Left {
    let mut memory = vec![DIRT; BEFORE + room + BEHIND];
    let made = make(&mut memory[BEFORE..BEFORE + room]);
    (made, memory)
}

/// All queues must write these answers to so many bytes, as far as they fit, and touch nothing else.
pub fn hold(list: &[u8], room: usize, answers: &[u8]) {
    let expected = written(room, |out| {
        let made = answers.len().min(room) / RECORD;
        out[..made * RECORD].copy_from_slice(&answers[..made * RECORD]);
        made
    });
    hold_one("the reference", list, room, &expected, |out| {
        answer_all(&mut Plain::default(), list, out)
    });
    hold_one("the quick reference", list, room, &expected, |out| {
        answer_all(&mut Quick::default(), list, out)
    });
    if PRESENT {
        hold_one("the library", list, room, &expected, |out| {
            queue_library::answer_all(list, out)
        });
    }
}

fn hold_one(
    who: &str,
    list: &[u8],
    room: usize,
    expected: &Left,
    make: impl FnOnce(&mut [u8]) -> usize,
) {
    let found = written(room, make);
    if found != *expected {
        differ(who, list, room, expected, &found);
    }
}

/// Holds only the library's answers, for many short lists.
pub fn hold_library(list: &[u8], answers: &[u8], memory: &mut Vec<u8>) {
    if !PRESENT {
        return;
    }
    memory.clear();
    memory.resize(answers.len() + BEHIND, DIRT);
    let made = queue_library::answer_all(list, &mut memory[..answers.len()]);
    let (found, behind) = memory.split_at(answers.len());
    if made * RECORD != answers.len() || found != answers || behind != [DIRT; BEHIND] {
        hold(list, answers.len(), answers);
        fail("the library answered one list in two ways", list);
    }
}

/// Ends the run with a list of calls.
pub fn fail(what: &str, list: &[u8]) -> ! {
    println!("calls: {}", spelled(list));
    crate::fail(what, list)
}

/// Prints the first call whose answer is another, and the calls up to it.
fn differ(who: &str, list: &[u8], room: usize, expected: &Left, found: &Left) -> ! {
    println!("a difference in {room} bytes of output: {who}");
    println!("calls made: expected {}, found {}", expected.0, found.0);
    let mut pairs = expected.1.iter().zip(&found.1);
    let Some(byte) = pairs.position(|(own, other)| own != other) else {
        fail("the output is alike", list);
    };
    let at = byte.wrapping_sub(BEFORE) / RECORD;
    if at >= expected.0 {
        println!("memory, hex, expected: {}", hex(&expected.1));
        println!("memory, hex, found: {}", hex(&found.1));
        fail("memory that belongs to no answer was touched", list);
    }
    let answer = |left: &Left| hex(&left.1[BEFORE + at * RECORD..][..RECORD]);
    println!("expected, hex: {}", answer(expected));
    println!("found, hex: {}", answer(found));
    let call = calls_of(list).nth(at);
    let what = format!("call {at}, counted from 0, is the first that differs: {call:?}");
    fail(&what, &list[..(at + 1) * RECORD])
}
