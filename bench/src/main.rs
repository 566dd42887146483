//! Compares the proved library with an independent implementation, and times both.

mod area_calls;
mod area_check;
mod area_examples;
mod area_families;
mod area_inputs;
mod area_library;
mod area_mappings;
mod area_times;
mod areas;
mod examples;
mod families;
mod fixed;
mod inputs;
mod kinds;
mod library;
mod queue_all;
mod queue_both;
mod queue_calls;
mod queue_check;
mod queue_counts;
mod queue_examples;
mod queue_library;
mod queue_lists;
mod queue_records;
mod queue_times;
mod queue_waits;
mod queues;
mod quick;
mod random;
mod reference;
mod score_check;
mod score_library;
mod score_texts;
mod score_times;
mod scores;
mod texts;
mod timing;

use inputs::texts_of;
use library::Library;
use random::Random;
use std::collections::BTreeMap;
use std::process::exit;
use texts::{in_dot_bracket, kinds_in};

/// The refusals that the printed lines can name, as they are counted.
const REFUSALS: [&str; 21] = [
    "refused  1 Q",
    "refused  1 T",
    "refused  2 Q",
    "refused  2 T",
    "refused  3 Q",
    "refused  3 T",
    "refused  4 Q",
    "refused  4 T",
    "refused  5",
    "refused  6 seed",
    "refused  7 seed",
    "refused  8",
    "refused 11 seed",
    "refused 15 seed",
    "refused 16 seed",
    "refused 17 seed",
    "refused 18 seed",
    "refused 19 seed",
    "refused 24 Q",
    "refused 24 T",
    "refused 25 seed",
];
/// What is counted of the texts of accepted inputs.
const ACCEPTED: [&str; 3] = [
    "accepted on an empty text",
    "accepted with several kinds of brackets in a text",
    "accepted in dots and round brackets alone",
];
/// Trying every set of seeds stays cheap up to here.
const TRIED: usize = 14;

struct Checker {
    library: Option<Library>,
    outcomes: BTreeMap<String, usize>,
    tried: usize,
    tied: usize,
    accepted: [usize; ACCEPTED.len()],
    longest: u32,
}

impl Checker {
    fn new() -> Checker {
        let outcomes = BTreeMap::new();
        Checker {
            library: Library::open(),
            outcomes,
            tried: 0,
            tied: 0,
            accepted: [0; ACCEPTED.len()],
            longest: 0,
        }
    }

    /// Holds every answer for one input against the reference's and counts the outcome.
    fn check(&mut self, input: &[u8]) {
        let lines = reference::report(input);
        let found = quick::report(input);
        if found != lines {
            differ("the quick reference", input, &lines, &found);
        }
        if let Some(library) = &mut self.library {
            match library.report_watched(input) {
                Ok(found) if found == lines => (),
                Ok(found) => differ("the library", input, &lines, found),
                Err(fault) => fail(&format!("the library: {fault}"), input),
            }
            if !library.turns_down_short_memory(input) {
                fail(
                    "the library: short memory was not turned down, or not left as it was",
                    input,
                );
            }
        }
        self.try_all(input);
        *self.outcomes.entry(outcome(&lines)).or_insert(0) += 1;
    }

    /// The self-check of the best chain: every set of seeds, where they are few. Counts what was accepted.
    fn try_all(&mut self, input: &[u8]) {
        let Ok(session) = reference::open(input, reference::check_seed) else {
            return;
        };
        self.count_accepted(input);
        let best = reference::best_chain(&session, reference::chainable);
        self.longest = self.longest.max(best.mask.count_ones());
        if session.seeds.len() > TRIED {
            return;
        }
        let (tried, ties) = reference::best_by_trying(&session);
        if tried != best {
            let (lines, found) = (reference::print_chain(tried), reference::print_chain(best));
            differ("the reference against every set", input, &lines, &found);
        }
        self.tried += 1;
        self.tied += (ties > 1) as usize;
    }

    fn count_accepted(&mut self, input: &[u8]) {
        let texts = texts_of(input);
        // In the order of their names.
        let met = [
            texts.iter().any(|text| text.is_empty()),
            texts.iter().any(|text| kinds_in(text) > 1),
            texts.iter().all(|text| in_dot_bracket(text)),
        ];
        (0..met.len()).for_each(|at| self.accepted[at] += met[at] as usize);
    }

    fn print_counts(&self) {
        for (outcome, count) in &self.outcomes {
            println!("  {outcome:<22}{count:>8}");
        }
        println!(
            "  {} of them also by trying every set, {} with a tie",
            self.tried, self.tied
        );
        for (what, count) in ACCEPTED.iter().zip(self.accepted) {
            println!("  {count} {what}");
        }
        println!("  the longest chain has {} seeds", self.longest);
    }

    /// Too few of a refusal, or of a kind of accepted texts, would leave them unchecked.
    fn fail_if_rare(&self, least: usize) {
        let count = |refusal| self.outcomes.get(refusal).copied().unwrap_or(0);
        let refused = REFUSALS.map(|refusal| (refusal, count(refusal)));
        let accepted = ACCEPTED.into_iter().zip(self.accepted);
        for (what, count) in refused.into_iter().chain(accepted) {
            if count < least {
                println!("{what}: only {count}");
                exit(1);
            }
        }
    }
}

/// What an answer is counted as: its ground and kind of place, or the kind of chain.
fn outcome(lines: &[u8]) -> String {
    let text = String::from_utf8_lossy(lines);
    let words: Vec<&str> = text.split_whitespace().collect();
    match words[0] {
        "refused" if words.len() == 2 => format!("refused {:>2}", words[1]),
        "refused" => format!("refused {:>2} {}", words[1], words[2]),
        _ if words.len() == 3 => "accepted, no chain".to_string(),
        _ => "accepted, a chain".to_string(),
    }
}

fn hex(bytes: &[u8]) -> String {
    bytes.iter().map(|byte| format!("{byte:02x}")).collect()
}

fn fail(what: &str, input: &[u8]) -> ! {
    println!("{what}\ninput, hex: {}", hex(input));
    exit(1)
}

fn differ(who: &str, input: &[u8], expected: &[u8], found: &[u8]) -> ! {
    println!("expected:\n{}", String::from_utf8_lossy(expected));
    println!("found:\n{}", String::from_utf8_lossy(found));
    fail(&format!("a difference: {who}"), input)
}

fn check_examples(checker: &mut Checker) {
    let examples = examples::all();
    for (input, lines) in &examples {
        let found = reference::report(input);
        if found != lines.as_bytes() {
            differ(
                "the reference on an example",
                input,
                lines.as_bytes(),
                &found,
            );
        }
        checker.check(input);
    }
    if !examples::leftmost_leaves_are_right() {
        fail("the leftmost leaves of the example trees", b"");
    }
    if !kinds::are_right() {
        fail("the kinds of the nodes of example texts", b"");
    }
    if !examples::texts_of_one_byte_are_right() {
        fail("the texts of one byte", b"");
    }
    println!("examples: {} right", examples.len());
}

fn check_fixed(checker: &mut Checker) {
    let inputs = fixed::fixed_inputs();
    inputs.iter().for_each(|input| checker.check(input));
    println!(
        "limits, changes of one byte, short texts, unlike nodes: {} alike",
        inputs.len()
    );
}

fn check_random(count: usize, start: u64) {
    let mut checker = Checker::new();
    let mut random = Random::new(start);
    for _ in 0..count {
        checker.check(&inputs::any_input(&mut random));
    }
    println!("random inputs from {start}: {count} alike");
    checker.print_counts();
    if count >= 2000 {
        checker.fail_if_rare(count / 200);
    }
}

/// About eight million lists: only if asked for.
fn check_lists(checker: &mut Checker) {
    let mut count = 0;
    fixed::small_lists(&mut |input| {
        checker.check(input);
        count += 1;
    });
    println!("lists of up to three pairs on texts of up to four bytes: {count} alike");
    checker.print_counts();
}

fn number(argument: Option<String>, default: u64) -> u64 {
    match argument.map(|text| text.parse()) {
        None => default,
        Some(Ok(number)) => number,
        Some(Err(_)) => {
            eprintln!(
                "usage: gurandyo-bench [scores, areas or queue] [how many random inputs] [where the random numbers start], or lists"
            );
            exit(2)
        }
    }
}

fn main() {
    let mut arguments = std::env::args().skip(1).peekable();
    if arguments.next_if(|word| word == "scores").is_some() {
        let count = number(arguments.next(), 4_000_000) as usize;
        return score_check::run(count, number(arguments.next(), 1));
    }
    if arguments.next_if(|word| word == "areas").is_some() {
        let count = number(arguments.next(), 20_000) as usize;
        return area_check::run(count, number(arguments.next(), 1));
    }
    if arguments.next_if(|word| word == "queue").is_some() {
        let count = number(arguments.next(), 100_000) as usize;
        return queue_check::run(count, number(arguments.next(), 1));
    }
    let mut checker = Checker::new();
    match checker.library {
        Some(_) => println!("comparing the library with the reference"),
        None => println!("the library is missing: the reference checks only itself"),
    }
    if arguments.next_if(|word| word == "lists").is_some() {
        return check_lists(&mut checker);
    }
    let count = number(arguments.next(), 20_000) as usize;
    let start = number(arguments.next(), 1);
    check_examples(&mut checker);
    check_fixed(&mut checker);
    check_random(count, start);
    timing::print_all(&mut checker.library);
}
