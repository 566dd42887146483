//! A queue for the panel (document 02, n), from the request's words alone: once with plain lists and the whole
//! past, and once with rings and a count, which is the yardstick for speed.

use crate::queue_records::{Job, Kind, Offered, Queue, Turned};

/// At most so many jobs wait together.
pub const PLACES: usize = 16;
/// The ground of a job that is offered while all places are taken.
pub const FULL: u8 = 31;
/// After so many turns that took urgent jobs while an ordinary one waited, the ordinary one is due.
const ROW: usize = 3;

/// One turn of the past.
#[derive(Clone, Copy)]
struct PastTurn {
    took: Turned,
    ordinary_waited: bool,
}

impl PastTurn {
    fn took_urgent_while_ordinary_waited(&self) -> bool {
        matches!(self.took, Some((Kind::Urgent, _))) && self.ordinary_waited
    }
}

/// The waiting jobs by kind, the oldest first, and all turns that there were.
#[derive(Clone, Default)]
pub struct Plain {
    waiting: [Vec<Job>; 2],
    past: Vec<PastTurn>,
}

impl Plain {
    pub fn waiting(&self, kind: Kind) -> &[Job] {
        &self.waiting[kind as usize]
    }

    fn last_three_passed_ordinary_over(&self) -> bool {
        let mut last = self.past.iter().rev().take(ROW);
        self.past.len() >= ROW && last.all(PastTurn::took_urgent_while_ordinary_waited)
    }

    fn take_oldest(&mut self, kind: Kind) -> Turned {
        let jobs = &mut self.waiting[kind as usize];
        match jobs.is_empty() {
            true => None,
            false => Some((kind, jobs.remove(0))),
        }
    }
}

impl Queue for Plain {
    fn offered(&mut self, kind: Kind, job: Job) -> Offered {
        if self.waiting.iter().map(Vec::len).sum::<usize>() == PLACES {
            return Err(FULL);
        }
        self.waiting[kind as usize].push(job);
        Ok(())
    }

    fn turned(&mut self) -> Turned {
        let ordinary_waited = !self.waiting(Kind::Ordinary).is_empty();
        let no_urgent = self.waiting(Kind::Urgent).is_empty();
        let took = match no_urgent || self.last_three_passed_ordinary_over() {
            true => self.take_oldest(Kind::Ordinary),
            false => self.take_oldest(Kind::Urgent),
        };
        self.past.push(PastTurn {
            took,
            ordinary_waited,
        });
        took
    }
}

/// Waiting jobs from the place `first` on, round the ring.
#[derive(Clone, Copy, Default)]
struct Ring {
    jobs: [Job; PLACES],
    first: usize,
    count: usize,
}

impl Ring {
    fn put(&mut self, job: Job) {
        self.jobs[(self.first + self.count) % PLACES] = job;
        self.count += 1;
    }

    fn take(&mut self, kind: Kind) -> Turned {
        if self.count == 0 {
            return None;
        }
        let job = self.jobs[self.first % PLACES];
        self.first = (self.first + 1) % PLACES;
        self.count -= 1;
        Some((kind, job))
    }
}

/// The same answers in fewer steps: of the past only the length of the row of turns up to the last one that took
/// urgent jobs while an ordinary one waited.
#[derive(Clone, Copy, Default)]
pub struct Quick {
    urgent: Ring,
    ordinary: Ring,
    row: usize,
}

impl Queue for Quick {
    fn offered(&mut self, kind: Kind, job: Job) -> Offered {
        if self.urgent.count + self.ordinary.count == PLACES {
            return Err(FULL);
        }
        match kind {
            Kind::Urgent => self.urgent.put(job),
            Kind::Ordinary => self.ordinary.put(job),
        }
        Ok(())
    }

    fn turned(&mut self) -> Turned {
        if self.urgent.count == 0 || self.row == ROW {
            self.row = 0;
            return self.ordinary.take(Kind::Ordinary);
        }
        self.row = if self.ordinary.count == 0 {
            0
        } else {
            self.row + 1
        };
        self.urgent.take(Kind::Urgent)
    }
}
