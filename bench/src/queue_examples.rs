//! Examples of a queue, told by hand from the request's words. `u7` is an accepted urgent offer of job 7, `o8` an
//! ordinary one, `u9=31` a refused one, `t=u7` a turn that takes that job and `t=none` one that finds nobody.

use crate::queue_records::{bytes_of_answer, bytes_of_call, job_of, Answer, Call, Job, Kind};
use crate::queue_waits::MOST_BEFORE;
use std::ops::RangeInclusive;

/// A list of calls and the bytes of their answers.
pub struct Example {
    pub text: String,
    pub calls: Vec<u8>,
    pub answers: Vec<u8>,
}

const SHORT: [&str; 17] = [
    "",
    "t=none t=none t=none",
    // The oldest first, in each kind and also among jobs alike.
    "u1 u2 u3 t=u1 t=u2 t=u3 t=none",
    "o1 o2 o3 t=o1 t=o2 t=o3 t=none",
    "u2 u1 u2 o2 t=u2 t=u1 t=u2 t=o2 t=none",
    // An urgent job first, whenever it came.
    "o1 u2 t=u2 t=o1 t=none",
    "o1 o2 t=o1 u3 t=u3 t=o2 t=none",
    // Three urgent ones pass an ordinary one over, then it is taken.
    "o1 u2 u3 u4 t=u2 t=u3 t=u4 t=o1 t=none",
    "o1 u2 u3 u4 u5 u6 t=u2 t=u3 t=u4 t=o1 t=u5 t=u6 t=none",
    "o1 o2 u3 u4 u5 u6 u7 u8 u9 t=u3 t=u4 t=u5 t=o1 t=u6 t=u7 t=u8 t=o2 t=u9 t=none",
    // Turns before an ordinary job waits do not count.
    "u1 u2 u3 u4 u5 u6 u7 t=u1 t=u2 t=u3 o8 t=u4 t=u5 t=u6 t=o8 t=u7 t=none",
    "u1 u2 u3 u4 u5 u6 t=u1 t=u2 o7 t=u3 t=u4 t=u5 t=o7 t=u6 t=none",
    // Nor do they after the last one was taken.
    "o1 u2 u3 u4 u5 u6 u7 u8 t=u2 t=u3 t=u4 t=o1 t=u5 t=u6 t=u7 o9 t=u8 t=o9 t=none",
    // An ordinary job that is taken for want of urgent ones ends the row, too.
    "o1 o2 u3 u4 t=u3 t=u4 t=o1 u5 u6 u7 u8 t=u5 t=u6 t=u7 t=o2 t=u8 t=none",
    "o1 u2 u3 t=u2 t=u3 t=o1 t=none o4 u5 u6 u7 u8 t=u5 t=u6 t=u7 t=o4 t=u8 t=none",
    // An offer does not end it.
    "o1 u2 t=u2 u3 o4 t=u3 u5 t=u5 u6 t=o1 t=u6 t=o4 t=none",
    // Late urgent jobs are passed over once.
    "o1 u2 u3 u4 t=u2 t=u3 t=u4 u5 t=o1 t=u5 t=none",
];

fn offers(kind: char, numbers: RangeInclusive<u16>) -> String {
    numbers.map(|number| format!("{kind}{number} ")).collect()
}

fn turns(kind: char, numbers: RangeInclusive<u16>) -> String {
    numbers.map(|number| format!("t={kind}{number} ")).collect()
}

/// 15, 16 and 17 jobs of one kind and of both: the seventeenth is refused and changes nothing.
fn places() -> [String; 6] {
    [
        offers('u', 1..=15) + &turns('u', 1..=15) + "t=none",
        offers('o', 1..=16) + "o17=31 u17=31 " + &turns('o', 1..=16) + "t=none",
        // A refused ordinary job does not wait, so that the row does not begin.
        offers('u', 1..=16) + "o17=31 " + &turns('u', 1..=16) + "t=none",
        // A place is freed by each turn, and by one turn only one.
        offers('u', 1..=16) + "u17=31 t=u1 u18 u19=31 t=u2 o20 o21=31 t=u3 t=u4 t=u5 t=o20 t=u6",
        offers('u', 1..=8) + &offers('o', 9..=16) + "u17=31 o17=31 t=u1 t=u2 t=u3 t=o9 t=u4",
        // A refused offer does not end the row.
        offers('o', 1..=13) + "u14 u15 u16 t=u14 u17 u18=31 t=u15 o19 o20=31 t=u16 u21 t=o1 t=u17",
    ]
}

/// So many ordinary jobs before another, and an urgent one at every turn: each of them takes four turns.
fn latest_ordinary(before: u16) -> String {
    let mut text = offers('o', 1..=before + 1) + "u100 ";
    let mut urgent = 100;
    for ordinary in 1..=before + 1 {
        for _ in 0..3 {
            text += &format!("t=u{urgent} u{} ", urgent + 1);
            urgent += 1;
        }
        text += &format!("t=o{ordinary} ");
    }
    text
}

/// So many urgent jobs before another, after three turns in a row, and an ordinary one at every turn: one of these
/// is taken at once and before every third one that follows.
fn latest_urgent(before: u16) -> String {
    let last = 4 + before;
    let mut text = "o100 u1 u2 u3 t=u1 t=u2 t=u3 ".to_string() + &offers('u', 4..=last);
    let mut ordinary = 100;
    for urgent in 4..=last {
        if urgent % 3 == 1 {
            text += &format!("t=o{ordinary} o{} ", ordinary + 1);
            ordinary += 1;
        }
        text += &format!("t=u{urgent} ");
    }
    text
}

fn job_in(word: &str) -> (Kind, Job) {
    let kind = match &word[..1] {
        "u" => Kind::Urgent,
        _ => Kind::Ordinary,
    };
    let number = word[1..].parse().expect("a job has a number");
    (kind, job_of(number))
}

fn call_and_answer(word: &str) -> (Call, Answer) {
    let (call, answer) = word.split_once('=').unwrap_or((word, ""));
    let call = match call {
        "t" => Call::Turn,
        _ => {
            let (kind, job) = job_in(call);
            Call::Offer(kind, job)
        }
    };
    let answer = match answer {
        "" => Answer::Offered(Ok(())),
        "31" => Answer::Offered(Err(31)),
        "none" => Answer::Turned(None),
        _ => Answer::Turned(Some(job_in(answer))),
    };
    (call, answer)
}

fn example(text: String) -> Example {
    let (calls, answers): (Vec<_>, Vec<_>) = text
        .split_whitespace()
        .map(call_and_answer)
        .map(|(call, answer)| (bytes_of_call(call), bytes_of_answer(answer)))
        .unzip();
    Example {
        calls: calls.concat(),
        answers: answers.concat(),
        text,
    }
}

pub fn all() -> Vec<Example> {
    let short = SHORT.map(str::to_string).into_iter();
    let latest = (0..=MOST_BEFORE as u16)
        .flat_map(|before| [latest_ordinary(before), latest_urgent(before)]);
    short.chain(places()).chain(latest).map(example).collect()
}
