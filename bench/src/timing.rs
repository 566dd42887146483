//! Times the library and the reference on the same inputs.

use crate::families::{Family, FAMILIES};
use crate::library::Library;
use crate::random::Random;
use crate::{quick, reference};
use std::fmt::Display;
use std::hint::black_box;
use std::time::Instant;

const INPUTS: usize = 16;
const ROUNDS: usize = 101;
/// One stint takes about this long, so that the clock's own cost does not show.
const STINT_NS: f64 = 500_000.0;

/// One who answers an input.
pub type Contestant<'a> = &'a mut dyn FnMut(&[u8]);

/// Nanoseconds for one input, on average over the inputs, `turns` times each.
fn stint(inputs: &[Vec<u8>], turns: usize, report: Contestant) -> f64 {
    let begin = Instant::now();
    for _ in 0..turns {
        inputs.iter().for_each(|input| report(black_box(input)));
    }
    begin.elapsed().as_nanos() as f64 / (turns * inputs.len()) as f64
}

/// Warms up and answers how many turns fill a stint.
fn turns_for(inputs: &[Vec<u8>], report: Contestant) -> usize {
    stint(inputs, 10, report);
    let once = stint(inputs, 10, report) * inputs.len() as f64;
    ((STINT_NS / once) as usize).max(1)
}

fn median(mut times: Vec<f64>) -> f64 {
    times.sort_by(f64::total_cmp);
    times[times.len() / 2]
}

/// The median for each contestant and size; a round has a stint of each contestant at each size,
/// so that a disturbance meets all of them.
pub fn contest(sizes: &[Vec<Vec<u8>>], contestants: &mut [Contestant]) -> Vec<Vec<f64>> {
    let turns: Vec<Vec<usize>> = contestants
        .iter_mut()
        .map(|report| {
            sizes
                .iter()
                .map(|inputs| turns_for(inputs, report))
                .collect()
        })
        .collect();
    let mut times = vec![vec![Vec::new(); sizes.len()]; contestants.len()];
    for _ in 0..ROUNDS {
        for (size, inputs) in sizes.iter().enumerate() {
            for (who, report) in contestants.iter_mut().enumerate() {
                times[who][size].push(stint(inputs, turns[who][size], report));
            }
        }
    }
    times
        .into_iter()
        .map(|own| own.into_iter().map(median).collect())
        .collect()
}

/// Times by size: of the reference, of it by the definitions, and of the library if it is there.
fn times_of(family: &Family, library: &mut Option<Library>) -> Vec<Vec<f64>> {
    let mut random = Random::new(1);
    let sizes: Vec<Vec<Vec<u8>>> = family
        .sizes
        .iter()
        .map(|&size| {
            (0..INPUTS)
                .map(|_| (family.make)(&mut random, size))
                .collect()
        })
        .collect();
    let mut fast = |input: &[u8]| drop(black_box(quick::report(input)));
    let mut plain = |input: &[u8]| drop(black_box(reference::report(input)));
    match library {
        None => contest(&sizes, &mut [&mut fast, &mut plain]),
        Some(library) => {
            let mut proved = |input: &[u8]| {
                black_box(library.report(input));
            };
            contest(&sizes, &mut [&mut fast, &mut plain, &mut proved])
        }
    }
}

fn growth(times: &[f64], size: usize) -> String {
    match size {
        0 => "-".to_string(),
        _ => format!("{:.2}", times[size] / times[size - 1]),
    }
}

/// The library's time, its growth and the ratio, or dashes without the library.
fn library_columns(times: &[Vec<f64>], size: usize) -> [String; 3] {
    match times.get(2) {
        None => ["-"; 3].map(str::to_string),
        Some(own) => {
            let ratio = own[size] / times[0][size];
            [
                format!("{:.0}", own[size]),
                growth(own, size),
                format!("{ratio:.2}"),
            ]
        }
    }
}

/// A row for each name: nanoseconds of the library, if it was timed, and of the reference before it, and their ratio.
pub fn print_ratios(title: &str, names: &[impl Display], times: &[Vec<f64>]) {
    println!(
        "\n{title:<36}{:>12}{:>12}{:>20}",
        "library", "reference", "library/reference"
    );
    for (at, name) in names.iter().enumerate() {
        let own = times[0][at];
        let (found, ratio) = match times.get(1) {
            None => ("-".to_string(), "-".to_string()),
            Some(found) => (
                format!("{:.1}", found[at]),
                format!("{:.2}", found[at] / own),
            ),
        };
        println!("{name:<36}{found:>12}{own:>12.1}{ratio:>20}");
    }
}

fn print_family(family: &Family, library: &mut Option<Library>) {
    println!(
        "\n{}: nanoseconds for one input, growth from one size to the next",
        family.name
    );
    println!(
        "{:>8}{:>12}{:>8}{:>12}{:>8}{:>20}{:>16}",
        family.unit,
        "library",
        "growth",
        "reference",
        "growth",
        "library/reference",
        "by definition"
    );
    let times = times_of(family, library);
    for (at, size) in family.sizes.iter().enumerate() {
        let [proved, rise, ratio] = library_columns(&times, at);
        let (reference, own_rise) = (times[0][at], growth(&times[0], at));
        let plain = times[1][at];
        println!(
            "{size:>8}{proved:>12}{rise:>8}{reference:>12.0}{own_rise:>8}{ratio:>20}{plain:>16.0}"
        );
    }
}

pub fn print_all(library: &mut Option<Library>) {
    for family in &FAMILIES {
        print_family(family, library);
    }
}
