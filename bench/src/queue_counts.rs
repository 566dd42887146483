//! What came up in lists of calls, and how long jobs waited.

use crate::queue_records::{Answer, Call, Kind, KINDS};
use crate::queue_waits::{bound, Taken, MOST_BEFORE};
use crate::queues::PLACES;
use std::process::exit;

/// What is counted, each of which must come up.
const OUTCOMES: [&str; 9] = [
    "urgent jobs accepted",
    "ordinary jobs accepted",
    "refusals with 31",
    "urgent jobs taken",
    "ordinary jobs taken",
    "of these while an urgent one waited",
    "none",
    "urgent jobs at their bound",
    "ordinary jobs at their bound",
];
const ACCEPTED: usize = 0;
const REFUSED: usize = 2;
const TAKEN: usize = 3;
const PASSED: usize = 5;
const NONE: usize = 6;
const REACHED: usize = 7;

#[derive(Default)]
pub struct Counts {
    outcomes: [usize; OUTCOMES.len()],
    /// By kind and by how many of it were before a job: how often its bound was reached, and the most turns.
    reached: [[usize; PLACES]; 2],
    most: [[usize; PLACES]; 2],
}

impl Counts {
    /// One call with its answer, and the job that it took.
    pub fn add(&mut self, call: Call, answer: Answer, urgent_waited: bool, taken: Option<Taken>) {
        let outcome = match (call, answer) {
            (Call::Offer(kind, _), Answer::Offered(Ok(()))) => ACCEPTED + kind as usize,
            (Call::Offer(..), _) => REFUSED,
            (Call::Turn, Answer::Turned(Some((kind, _)))) => TAKEN + kind as usize,
            (Call::Turn, _) => NONE,
        };
        self.outcomes[outcome] += 1;
        let ordinary = matches!(answer, Answer::Turned(Some((Kind::Ordinary, _))));
        self.outcomes[PASSED] += (ordinary && urgent_waited) as usize;
        if let Some(taken) = taken {
            self.add_wait(taken);
        }
    }

    fn add_wait(&mut self, taken: Taken) {
        let Taken {
            kind,
            before,
            turns,
        } = taken;
        let most = &mut self.most[kind as usize][before];
        *most = turns.max(*most);
        let reached = (turns == bound(kind, before)) as usize;
        self.reached[kind as usize][before] += reached;
        self.outcomes[REACHED + kind as usize] += reached;
    }

    pub fn print(&self, name: &str) {
        let counts: Vec<String> = OUTCOMES
            .iter()
            .zip(self.outcomes)
            .map(|(outcome, count)| format!("{count} {outcome}"))
            .collect();
        println!("{name}: {}", counts.join(", "));
    }

    /// The most turns that a job waited, by how many were before it, where the bound is.
    pub fn print_waits(&self) {
        for kind in KINDS {
            let rows: Vec<String> = (0..PLACES)
                .map(|before| {
                    let most = self.most[kind as usize][before];
                    let reached = self.reached[kind as usize][before];
                    format!("{before}: {most} of {} ({reached})", bound(kind, before))
                })
                .collect();
            println!(
                "  {kind:?} jobs with so many before them: the most turns of the bound (how often reached)"
            );
            println!("    {}", rows.join(", "));
        }
    }

    /// Too few of an outcome, or a bound that can be reached and was not, would leave it unchecked.
    pub fn fail_if_rare(&self, least: usize) {
        for (outcome, count) in OUTCOMES.iter().zip(self.outcomes) {
            if count < least {
                println!("{outcome}: only {count}");
                exit(1);
            }
        }
        for kind in KINDS {
            let reached = &self.reached[kind as usize][..=MOST_BEFORE];
            if let Some(before) = reached.iter().position(|&count| count == 0) {
                println!("the bound of {kind:?} jobs with {before} before them: never reached");
                exit(1);
            }
        }
    }
}
