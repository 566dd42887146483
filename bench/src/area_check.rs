//! Holds the library's open areas to the reference's, byte for byte, and Algorithm 3 to the definition.

use crate::area_calls::{differ, hold_library, written, Call};
use crate::area_families::FAMILIES;
use crate::area_inputs::grown_input;
use crate::area_library::{answer, PRESENT};
use crate::area_mappings::small_mappings;
use crate::areas::{self, by_algorithm, by_definition, in_paper_order, Area, Order, ORDERS};
use crate::inputs::any_input;
use crate::random::Random;
use crate::reference::{check_seed, open, Nodes, Session};
use crate::{area_examples, area_times, fail, hex};
use std::process::exit;

/// All mappings on texts of up to so many bytes take some seconds.
const SHORT: usize = 6;
/// Numbers that were never given out, of which some are small once cut to fewer bits.
const FAR: [usize; 5] = [65, 256 + 1, 65536 + 1, (1 << 32) + 1, usize::MAX];

/// What is counted, each of which must come up.
const OUTCOMES: [&str; 13] = [
    "seeds",
    "without areas",
    "with one",
    "with several",
    "whose order is not that of a",
    "with an area of one node of Q",
    "with a gap in one tree alone",
    "with an unpaired node inside",
    "on trees of unlike shape",
    "listings",
    "refusals with 9",
    "with 22",
    "of the opening",
];
const SEEDS: usize = 0;
const BY_COUNT: usize = 1;
const OTHER_ORDER: usize = 4;
const ONE_NODE: usize = 5;
const ONE_TREE: usize = 6;
const INSIDE: usize = 7;
const UNLIKE: usize = 8;
const LISTED: usize = 9;
const NOT_GIVEN: usize = 10;
const SHORT_OUTPUT: usize = 11;
const NOT_OPENED: usize = 12;

struct Checker {
    counts: [usize; OUTCOMES.len()],
    inputs: usize,
    most: usize,
    /// Seeds where Algorithm 3 gives other areas, or the same in another order than the request's words.
    other_areas: usize,
    other_order: usize,
}

impl Checker {
    fn new() -> Checker {
        Checker {
            counts: [0; OUTCOMES.len()],
            inputs: 0,
            most: 0,
            other_areas: 0,
            other_order: 0,
        }
    }

    /// All seeds of an input, and numbers that were never given out.
    fn check(&mut self, input: &[u8]) {
        self.inputs += 1;
        let session = match open(input, check_seed) {
            Ok(session) => session,
            Err(refusal) => return self.refused(input, refusal.ground),
        };
        for seed in 0..session.seeds.len() {
            match by_definition(&session, seed) {
                Ok(areas) => self.seed(input, &session, seed, &areas),
                Err(fault) => fail(fault, input),
            }
        }
        let past = session.seeds.len() + 1;
        for number in [0, past, FAR[self.inputs % FAR.len()]] {
            for (order, room) in ORDERS
                .into_iter()
                .flat_map(|order| [(order, 0), (order, 64)])
            {
                self.hold(input, &session, (number, order, room), Err(9));
            }
        }
    }

    /// A refused opening: no area is listed and nothing touched.
    fn refused(&mut self, input: &[u8], ground: u8) {
        self.counts[NOT_OPENED] += 1;
        for (order, number) in [(Order::RisingA, 1), (Order::Paper, 0)] {
            let expected = written(64, |_| -(ground as i64));
            hold_library(input, (number, order, 64), &expected);
        }
    }

    /// One seed, whose areas by the definition are given, with outputs that are too short, just right and
    /// longer.
    fn seed(&mut self, input: &[u8], session: &Session, seed: usize, areas: &[Area]) {
        let ordered = in_paper_order(session, seed, areas);
        self.count_seed(session, seed, areas, &ordered);
        self.judge_algorithm(input, session, seed, &ordered);
        for (order, rows) in ORDERS.into_iter().zip([areas, &ordered]) {
            let exact = 4 * rows.len();
            let short = [
                0,
                1,
                exact / 2,
                exact.saturating_sub(4),
                exact.saturating_sub(1),
            ];
            let mut rooms = [&short[..], &[exact, exact + 1, exact + 4, exact + 400]].concat();
            rooms.sort();
            rooms.dedup();
            for room in rooms {
                let expected = if room < exact { Err(22) } else { Ok(rows) };
                self.hold(input, session, (seed + 1, order, room), expected);
            }
        }
    }

    fn count_seed(&mut self, session: &Session, seed: usize, areas: &[Area], ordered: &[Area]) {
        self.counts[SEEDS] += 1;
        self.counts[BY_COUNT + areas.len().min(2)] += 1;
        self.counts[OTHER_ORDER] += (areas != ordered) as usize;
        self.counts[ONE_NODE] += areas.iter().any(|area| area[0] == area[1]) as usize;
        self.counts[ONE_TREE] += has_lone_gap(session, seed, areas) as usize;
        self.counts[INSIDE] += has_unpaired(session, seed) as usize;
        self.counts[UNLIKE] += (session.q.leftmost != session.t.leftmost) as usize;
        self.most = self.most.max(areas.len());
    }

    /// The definition decides which areas there are, and the request's words their order.
    fn judge_algorithm(&mut self, input: &[u8], session: &Session, seed: usize, ordered: &[Area]) {
        let found = by_algorithm(&session.q, &session.t, session.pairs(seed));
        if found.rows() == ordered {
            return;
        }
        let sorted = |rows: &[Area]| {
            let mut rows = rows.to_vec();
            rows.sort();
            rows
        };
        let same = sorted(found.rows()) == sorted(ordered);
        self.other_order += same as usize;
        self.other_areas += !same as usize;
        println!("Algorithm 3 differs for seed {}", seed + 1);
        println!(
            "by the words: {ordered:?}\nby Algorithm 3: {:?}",
            found.rows()
        );
        println!("input, hex: {}", hex(input));
    }

    /// One call with an output of so many bytes amid dirty memory.
    fn hold(&mut self, input: &[u8], session: &Session, call: Call, expected: Result<&[Area], u8>) {
        let (number, order, room) = call;
        self.counts[match expected {
            Ok(_) => LISTED,
            Err(9) => NOT_GIVEN,
            Err(_) => SHORT_OUTPUT,
        }] += 1;
        let expected = written(room, |out| {
            let bytes = expected.map_or(Vec::new(), |rows| rows.concat());
            out[..bytes.len()].copy_from_slice(&bytes);
            answer(expected.map(<[Area]>::len))
        });
        let own = written(room, |out| answer(areas::list(session, number, order, out)));
        // What Algorithm 3 gives otherwise is counted, and is no fault of the reference.
        if own != expected && self.other_areas + self.other_order == 0 {
            differ("the reference", input, call, &expected, &own);
        }
        hold_library(input, call, &expected);
    }

    /// One part of the comparison, with a line that says what came up in it.
    fn part(&mut self, name: &str, check: impl FnOnce(&mut Checker)) {
        let (inputs, before) = (self.inputs, self.counts);
        check(self);
        let counts = (0..OUTCOMES.len())
            .map(|at| format!("{} {}", self.counts[at] - before[at], OUTCOMES[at]))
            .collect::<Vec<String>>();
        println!(
            "{name}: {} inputs, {}",
            self.inputs - inputs,
            counts.join(", ")
        );
    }

    /// An outcome that never came up would be left unchecked.
    fn finish(&self) {
        println!("the most areas of a seed: {}", self.most);
        println!(
            "Algorithm 3 over all pairs: other areas for {} seeds, another order for {}",
            self.other_areas, self.other_order
        );
        for (outcome, count) in OUTCOMES.iter().zip(self.counts) {
            if count == 0 {
                println!("{outcome}: never");
                exit(1);
            }
        }
    }
}

/// Whether a span has more nodes than there are pairs.
fn has_unpaired(session: &Session, seed: usize) -> bool {
    let own = &session.seeds[seed];
    let count = |span: &Nodes| span.0.iter().map(|word| word.count_ones()).sum::<u32>() as usize;
    count(&own.span_q).max(count(&own.span_t)) > session.pairs(seed).len()
}

/// Whether some node of Q or of T below the last pair and outside the span is in no area.
fn has_lone_gap(session: &Session, seed: usize, areas: &[Area]) -> bool {
    let (own, last) = (&session.seeds[seed], session.last(seed));
    let in_q = |node: u8| areas.iter().any(|area| (area[0]..=area[1]).contains(&node));
    let in_t = |node: u8| areas.iter().any(|area| (area[2]..=area[3]).contains(&node));
    let (mut qs, mut ts) = (
        session.q.left(last.q)..last.q,
        session.t.left(last.t)..last.t,
    );
    qs.any(|node| !own.span_q.has(node) && !in_q(node))
        || ts.any(|node| !own.span_t.has(node) && !in_t(node))
}

fn check_examples(checker: &mut Checker) {
    for (input, order, rows) in area_examples::all() {
        let session = open(&input, check_seed).unwrap_or_else(|_| fail("an example", &input));
        checker.hold(&input, &session, (1, order, 64), Ok(rows));
        checker.check(&input);
    }
}

/// Every size of each family.
fn check_families(checker: &mut Checker) {
    for family in &FAMILIES {
        (1..=family.largest).for_each(|size| checker.check(&(family.make)(size)));
    }
}

fn check_grown(checker: &mut Checker, count: usize, start: u64) {
    let mut random = Random::new(start);
    (0..count).for_each(|_| checker.check(&grown_input(&mut random)));
}

fn check_any(checker: &mut Checker, count: usize, start: u64) {
    let mut random = Random::new(start);
    (0..count).for_each(|_| checker.check(&any_input(&mut random)));
}

/// All parts, with so many random inputs, then the times.
pub fn run(count: usize, start: u64) {
    match PRESENT {
        true => println!("comparing the library's open areas with the reference's"),
        false => println!("the library's open areas are missing: the reference checks only itself"),
    }
    let mut checker = Checker::new();
    checker.part("examples", check_examples);
    checker.part("families at all sizes", check_families);
    checker.part(
        &format!("all mappings on texts of up to {SHORT} bytes"),
        |checker| small_mappings(SHORT, &mut |input| checker.check(input)),
    );
    checker.part(
        &format!("texts grown around a seed, from {start}"),
        |checker| check_grown(checker, count, start),
    );
    checker.part(&format!("random inputs from {start}"), |checker| {
        check_any(checker, count / 10, start)
    });
    checker.finish();
    area_times::print_all();
}
