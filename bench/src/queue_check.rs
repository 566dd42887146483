//! Holds the library's queue to the references, byte for byte, and these to each other and to the request.

use crate::queue_all::{beginning, lists_from};
use crate::queue_both::Both;
use crate::queue_calls::{fail, hold};
use crate::queue_counts::Counts;
use crate::queue_library::PRESENT;
use crate::queue_lists::any_list;
use crate::queue_records::{bytes_of_answer, calls_of, RECORD};
use crate::queues::PLACES;
use crate::random::Random;
use crate::{queue_examples, queue_times};

/// All lists of up to so many calls take about half a minute.
const SHORT: usize = 16;
/// All lists of up to so many calls behind 14 to 16 waiting jobs take some seconds.
const MORE: usize = 10;
/// Fewer random lists would not show everything often enough.
const ENOUGH: usize = 5_000;
/// So many jobs of each kind go before, so that places that go round would come to their end soon.
const SERVED: usize = PLACES - 4;

/// The answers to a list of calls, by both references.
fn answers_to(list: &[u8], counts: &mut Counts) -> Vec<u8> {
    let mut both = Both::default();
    let mut answers = Vec::new();
    for (at, call) in calls_of(list).enumerate() {
        match both.called(call, counts) {
            Ok(answer) => answers.extend(bytes_of_answer(answer)),
            Err(fault) => fail(fault, &list[..(at + 1) * RECORD]),
        }
    }
    answers
}

/// The answers told by hand, in outputs of every length, and with the last records cut off at every byte.
fn check_examples(counts: &mut Counts) {
    let examples = queue_examples::all();
    for example in &examples {
        let (list, answers) = (&example.calls, &example.answers);
        if answers_to(list, counts) != *answers {
            println!("an example is answered otherwise: {}", example.text);
        }
        for room in (0..=answers.len() + RECORD + 1).rev() {
            hold(list, room, answers);
        }
        for cut in 0..list.len() {
            let whole = cut / RECORD * RECORD;
            hold(&list[..cut], answers.len(), &answers[..whole]);
        }
    }
    counts.print(&format!("examples, {} lists", examples.len()));
}

fn check_all(counts: &mut Counts) {
    let lists = lists_from(&[], SHORT, counts);
    counts.print(&format!("all lists of up to {SHORT} calls, {lists} lists"));
}

/// Where the places are nearly or all taken, at once or after jobs went before.
fn check_full(counts: &mut Counts) {
    let mut lists = 0;
    for served in [0, SERVED] {
        for waiting in PLACES - 2..=PLACES {
            for urgent in 0..=waiting {
                let beginning = beginning(served, [urgent, waiting - urgent]);
                lists += lists_from(&beginning, MORE, counts);
            }
        }
    }
    counts.print(&format!(
        "all lists of up to {MORE} calls behind 14 to 16 waiting jobs, {lists} lists"
    ));
}

/// One list, with an output that is just long enough, one that is too short, and a last record that is cut off.
fn check_list(random: &mut Random, list: &[u8], counts: &mut Counts) {
    let answers = answers_to(list, counts);
    hold(list, answers.len(), &answers);
    hold(list, random.below(answers.len() + 1), &answers);
    if let Some(last) = answers.len().checked_sub(RECORD) {
        let cut = &list[..last + random.size(1, RECORD - 1)];
        let room = last + random.below(3 * RECORD);
        hold(cut, room, &answers[..last]);
    }
}

fn check_random(count: usize, start: u64, counts: &mut Counts) {
    let mut random = Random::new(start);
    for _ in 0..count {
        let list = any_list(&mut random);
        check_list(&mut random, &list, counts);
    }
    counts.print(&format!("random lists from {start}, {count} lists"));
    counts.print_waits();
    if count >= ENOUGH {
        counts.fail_if_rare(count);
    }
}

/// All parts, with so many random lists, then the times.
pub fn run(count: usize, start: u64) {
    match PRESENT {
        true => println!("comparing the library's queue with the references"),
        false => println!("the library's queue is missing: the references check only themselves"),
    }
    check_examples(&mut Counts::default());
    check_all(&mut Counts::default());
    check_full(&mut Counts::default());
    check_random(count, start, &mut Counts::default());
    queue_times::print_all();
}
