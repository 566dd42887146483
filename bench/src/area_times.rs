//! Times the two listings of open areas, and opening the session alone, which each of them begins with.

use crate::area_families::{Family, FAMILIES};
use crate::area_inputs::grown_draft;
use crate::area_library::{self, PRESENT};
use crate::areas::{self, Order};
use crate::inputs::{join, plain_deck, Draft};
use crate::quick;
use crate::random::Random;
use crate::reference::{check_seed, open};
use crate::timing::{contest, Contestant};
use std::hint::black_box;

const INPUTS: usize = 16;
/// More bytes than the areas of any seed take.
const ROOM: usize = 1024;

/// What one row of a table is timed on.
type Row = (String, Vec<Vec<u8>>);

/// A quarter of the largest size, then that size.
fn growing(family: &Family) -> [Row; 2] {
    [family.largest / 4, family.largest].map(|size| {
        let name = format!("{size} {}", family.name);
        (name, vec![(family.make)(size)])
    })
}

/// Texts of nearly 255 bytes that grew around a seed with several areas.
fn grown() -> Row {
    let mut random = Random::new(1);
    let mut inputs = Vec::new();
    while inputs.len() < INPUTS {
        let draft = grown_draft(&mut random, [255; 2]);
        let input = join(&draft.q, &draft.t, &plain_deck(&draft.seeds));
        if is_large(&draft) && has_areas(&input) {
            inputs.push(input);
        }
    }
    ("grown around a seed".to_string(), inputs)
}

fn is_large(draft: &Draft) -> bool {
    draft.q.len().min(draft.t.len()) >= 200 && draft.seeds[0].1.len() >= 20
}

fn has_areas(input: &[u8]) -> bool {
    open(input, check_seed).is_ok_and(|session| {
        areas::list(&session, 1, Order::Paper, &mut [0; ROOM]).is_ok_and(|count| count >= 5)
    })
}

fn by_reference(input: &[u8], number: usize, order: Order) {
    let mut out = [0; ROOM];
    if let Ok(session) = open(input, quick::check_seed) {
        let _ = black_box(areas::list(&session, number, order, &mut out));
    }
    black_box(&out);
}

fn by_library(input: &[u8], number: usize, order: Order) {
    let mut out = [0; ROOM];
    black_box(area_library::list(input, number, order, &mut out));
    black_box(&out);
}

/// The calls that are timed. No seed has number 0, so that the first one opens the session and lists nothing.
const CALLS: [(&str, usize, Order); 3] = [
    ("opening alone, ns", 0, Order::RisingA),
    ("opening, areas by rising a, ns", 1, Order::RisingA),
    ("opening, areas in the paper's order, ns", 1, Order::Paper),
];

/// For each call the medians by row, of the reference and then of the library if it is there. The two take
/// turns, so that neither finds the processor used to its own branches.
fn times_of(inputs: &[Vec<Vec<u8>>]) -> Vec<Vec<f64>> {
    let mut own =
        CALLS.map(|(_, number, order)| move |input: &[u8]| by_reference(input, number, order));
    let mut proved =
        CALLS.map(|(_, number, order)| move |input: &[u8]| by_library(input, number, order));
    let mut all: Vec<Contestant> = Vec::new();
    for (own, proved) in own.iter_mut().zip(&mut proved) {
        all.push(own);
        if PRESENT {
            all.push(proved);
        }
    }
    contest(inputs, &mut all)
}

/// One program's time of a call, and that time less the opening.
fn columns(opening: f64, time: f64) -> String {
    format!("{time:>12.0}{:>12.0}", time - opening)
}

/// The times of one call, by the times of both programs for opening alone and for that call.
fn print_table(names: &[String], opening: &[Vec<f64>], times: &[Vec<f64>], call: &str) {
    println!(
        "\n{call:<44}{:>12}{:>12}{:>12}{:>12}{:>20}",
        "library", "areas", "reference", "areas", "library/reference"
    );
    for (row, name) in names.iter().enumerate() {
        let own = columns(opening[0][row], times[0][row]);
        match times.get(1) {
            None => println!("{name:<44}{:>12}{:>12}{own}{:>20}", "-", "-", "-"),
            Some(found) => {
                let proved = columns(opening[1][row], found[row]);
                let ratio = found[row] / times[0][row];
                println!("{name:<44}{proved}{own}{ratio:>20.2}");
            }
        }
    }
}

pub fn print_all() {
    let rows = FAMILIES.iter().flat_map(growing).chain([grown()]);
    let (names, inputs): (Vec<_>, Vec<_>) = rows.unzip();
    let times = times_of(&inputs);
    let programs = times.len() / CALLS.len();
    for (call, own) in CALLS.iter().zip(times.chunks(programs)) {
        print_table(&names, &times[..programs], own, call.0);
    }
}
