//! Times the library's queue and the quick reference on the same lists of calls, from the start of a queue on.

use crate::queue_library::{self, PRESENT};
use crate::queue_records::{answer_all, bytes_of_call, job_of, Answer, Call, Kind, Queue, RECORD};
use crate::queues::{Quick, PLACES};
use crate::random::Random;
use crate::timing::{contest, print_ratios};
use std::hint::black_box;

const LISTS: usize = 16;
const CALLS: usize = 1_000;
/// How often the same calls are repeated where the time is to be seen as the turns grow.
const REPEATS: [usize; 3] = [1, 10, 100];

/// What one row of a table is timed on: lists of as many calls each.
type Row = (String, Vec<Vec<u8>>);

/// A list that is being made, with the queue that it leaves.
struct Draft {
    random: Random,
    queue: Quick,
    calls: Vec<Call>,
}

impl Draft {
    fn call(&mut self, call: Call) -> Answer {
        self.calls.push(call);
        self.queue.called(call)
    }

    fn offer(&mut self, kind: Kind) {
        let job = job_of(self.random.next() as u16);
        self.call(Call::Offer(kind, job));
    }

    fn offers(&mut self, kind: Kind, count: usize) {
        (0..count).for_each(|_| self.offer(kind));
    }

    fn turns(&mut self, count: usize) {
        for _ in 0..count {
            self.call(Call::Turn);
        }
    }

    fn any_kind(&mut self) -> Kind {
        self.random.pick(&[Kind::Urgent, Kind::Ordinary])
    }

    /// A turn, and an offer of the kind that it took, so that as many of each wait as before.
    fn replace(&mut self) {
        if let Answer::Turned(Some((kind, _))) = self.call(Call::Turn) {
            self.offer(kind);
        }
    }

    fn is_done(&self) -> bool {
        self.calls.len() >= CALLS
    }
}

/// Lists from a beginning and from steps that are repeated.
fn row(name: &str, begin: impl Fn(&mut Draft), step: impl Fn(&mut Draft)) -> Row {
    let lists = (1..=LISTS as u64).map(|start| {
        let mut draft = Draft {
            random: Random::new(start),
            queue: Quick::default(),
            calls: Vec::new(),
        };
        begin(&mut draft);
        while !draft.is_done() {
            step(&mut draft);
        }
        draft.calls.truncate(CALLS);
        bytes_of(&draft.calls)
    });
    (name.to_string(), lists.collect())
}

fn bytes_of(calls: &[Call]) -> Vec<u8> {
    calls.iter().copied().flat_map(bytes_of_call).collect()
}

/// Full of so many urgent jobs and else of ordinary ones, a turn and an offer for each other.
fn full(name: &str, urgent: usize) -> Row {
    let fill = |draft: &mut Draft| {
        draft.offers(Kind::Urgent, urgent);
        draft.offers(Kind::Ordinary, PLACES - urgent);
    };
    row(name, fill, Draft::replace)
}

fn one_at_a_time() -> Row {
    let step = |draft: &mut Draft| {
        draft.offer(Kind::Urgent);
        draft.turns(1);
    };
    row("one urgent job at a time", |_| (), step)
}

/// So many offers of any kind and then so many turns.
fn bursts(name: &str, offers: usize, turns: usize) -> Row {
    let step = |draft: &mut Draft| {
        for _ in 0..offers {
            let kind = draft.any_kind();
            draft.offer(kind);
        }
        draft.turns(turns);
    };
    row(name, |_| (), step)
}

fn any_calls() -> Row {
    row("any calls, evenly", |_| (), any_call)
}

fn any_call(draft: &mut Draft) {
    let call = draft.random.below(3);
    match call {
        0 => draft.offer(Kind::Urgent),
        1 => draft.offer(Kind::Ordinary),
        _ => draft.turns(1),
    }
}

fn rows() -> Vec<Row> {
    vec![
        full("full, 15 urgent, 1 ordinary", 15),
        full("full, 8 urgent, 8 ordinary", 8),
        full("full, urgent alone", PLACES),
        full("full, ordinary alone", 0),
        one_at_a_time(),
        bursts("16 offers, 16 turns", 16, 16),
        bursts("9 offers to a turn, most refused", 9, 1),
        bursts("an offer to 9 turns, most none", 1, 9),
        any_calls(),
    ]
}

/// The same calls again and again: they end in an empty queue, so that each time the answers are the same.
fn repeated() -> Vec<Row> {
    let (_, lists) = row("", |_| (), any_call);
    let drained = PLACES + 1;
    let mut list = lists.concat();
    list.truncate((CALLS - drained) * RECORD);
    list.extend(bytes_of(&[Call::Turn]).repeat(drained));
    REPEATS
        .iter()
        .map(|&count| {
            let name = format!("{} calls", CALLS * count);
            (name, vec![list.repeat(count)])
        })
        .collect()
}

/// Nanoseconds of one call for each row, of the quick reference and of the library if it is there.
fn times_of(inputs: &[Vec<Vec<u8>>]) -> Vec<Vec<f64>> {
    let room = inputs.iter().flatten().map(Vec::len).max().unwrap_or(0);
    let (mut own, mut out) = (vec![0; room], vec![0; room]);
    let mut quick = |list: &[u8]| {
        black_box(answer_all(&mut Quick::default(), list, &mut own));
    };
    let mut library = |list: &[u8]| {
        black_box(queue_library::answer_all(list, &mut out));
    };
    let times = match PRESENT {
        true => contest(inputs, &mut [&mut quick, &mut library]),
        false => contest(inputs, &mut [&mut quick]),
    };
    let a_call = |(time, lists): (f64, &Vec<Vec<u8>>)| time / (lists[0].len() / RECORD) as f64;
    times
        .into_iter()
        .map(|own| own.into_iter().zip(inputs).map(a_call).collect())
        .collect()
}

fn print_table(title: &str, rows: Vec<Row>) {
    let (names, inputs): (Vec<_>, Vec<_>) = rows.into_iter().unzip();
    print_ratios(title, &names, &times_of(&inputs));
}

pub fn print_all() {
    print_table(&format!("lists of {CALLS} calls, ns a call"), rows());
    print_table("the same calls repeated, ns a call", repeated());
}
