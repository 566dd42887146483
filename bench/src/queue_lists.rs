//! Random lists of calls, in bytes.

use crate::queue_records::RECORD;
use crate::random::Random;

/// How many calls of a hundred are urgent and ordinary offers; the others are turns.
type Shares = (usize, usize);

const URGENT: Shares = (100, 0);
const ORDINARY: Shares = (0, 100);
const OFFERS: Shares = (50, 50);
const TURNS: Shares = (0, 0);

/// Shares that stay for a whole list.
const STEADY: [Shares; 8] = [
    // Evenly, mostly offers, mostly turns.
    (33, 33),
    (45, 45),
    (10, 10),
    // Many of one kind and few of the other.
    (50, 5),
    (5, 50),
    (40, 15),
    // One kind alone.
    (50, 0),
    (0, 50),
];
/// Shares of two calls that follow each other in a stretch: one way of calls alone, an offer and a turn in turn,
/// as long as a job can be kept waiting so, or as it comes.
const STRETCHES: [[Shares; 2]; 12] = [
    [URGENT; 2],
    [ORDINARY; 2],
    [OFFERS; 2],
    [TURNS; 2],
    [URGENT, TURNS],
    [ORDINARY, TURNS],
    [OFFERS, TURNS],
    [(50, 0); 2],
    [(0, 50); 2],
    [(60, 5); 2],
    [(10, 60); 2],
    [(33, 33); 2],
];
/// The most calls of a list, and of a stretch.
const LONGEST: [usize; 4] = [20, 100, 500, 3_000];
const LONGEST_STRETCH: [usize; 4] = [4, 10, 30, 150];
/// Numbers at the ends of 16 bits and of their bytes.
const FEW: [u16; 6] = [0, 1, 255, 256, 32_768, 65_535];

/// Any list of calls: half of them of steady shares, the others of stretches.
pub fn any_list(random: &mut Random) -> Vec<u8> {
    let longest = random.pick(&LONGEST);
    let count = random.size(0, longest);
    let few = random.chance(10);
    if random.chance(50) {
        let shares = random.pick(&STEADY);
        return stretch(random, count, [shares; 2], few);
    }
    let mut list = Vec::new();
    while list.len() < count * RECORD {
        let longest = random.pick(&LONGEST_STRETCH);
        let length = random.size(1, longest);
        let shares = random.pick(&STRETCHES);
        list.extend(stretch(random, length, shares, few));
    }
    list
}

/// So many calls, with numbers of all 16 bits or of few.
fn stretch(random: &mut Random, count: usize, shares: [Shares; 2], few: bool) -> Vec<u8> {
    let calls = (0..count).flat_map(|at| call(random, shares[at % 2], few));
    calls.collect()
}

fn call(random: &mut Random, (urgent, ordinary): Shares, few: bool) -> [u8; RECORD] {
    let drawn = random.below(100);
    let first = if drawn < urgent {
        1
    } else if drawn < urgent + ordinary {
        2
    } else {
        turn_byte(random)
    };
    let [query, structure] = [(); 2].map(|_| number(random, few).to_be_bytes());
    [first, query[0], query[1], structure[0], structure[1]]
}

/// Any byte that stands for no offer.
fn turn_byte(random: &mut Random) -> u8 {
    match random.byte() {
        1 => 0,
        2 => 3,
        other => other,
    }
}

fn number(random: &mut Random, few: bool) -> u16 {
    match few {
        true => random.pick(&FEW),
        false => random.next() as u16,
    }
}
