//! Holds calls and answers to what the request promises of waiting: the order in each kind, the places, and the
//! turns within which a job is taken. Nothing here knows which kind a turn has to take.

use crate::queue_records::{Answer, Call, Job, Kind, KINDS};
use crate::queues::{FULL, PLACES};

/// A waiting job: how many of its kind waited before it when it was accepted, and after how many turns that was.
#[derive(Clone, Copy)]
struct Waiting {
    job: Job,
    before: usize,
    since: usize,
}

/// The most of its own kind that can be before a job that waits up to its bound: a job of the other kind is there,
/// too, and itself.
pub const MOST_BEFORE: usize = PLACES - 2;

/// The turns within which a job with so many of its kind before it is taken.
pub fn bound(kind: Kind, before: usize) -> usize {
    match kind {
        Kind::Urgent => before + 2 + before / 3,
        Kind::Ordinary => 4 * (before + 1),
    }
}

/// What a list of calls showed, from calls and answers alone.
#[derive(Clone, Default)]
pub struct Waits {
    waiting: [Vec<Waiting>; 2],
    turns: usize,
}

/// A job that was taken: its kind, how many were before it, and at which turn after its acceptance.
pub struct Taken {
    pub kind: Kind,
    pub before: usize,
    pub turns: usize,
}

impl Waits {
    /// The jobs of a kind that were accepted and not yet taken, in their order.
    pub fn jobs(&self, kind: Kind) -> impl Iterator<Item = Job> + '_ {
        self.waiting[kind as usize]
            .iter()
            .map(|waiting| waiting.job)
    }

    /// One call with its answer, which must keep the promises; the job that it took, if any.
    pub fn see(&mut self, call: Call, answer: Answer) -> Result<Option<Taken>, &'static str> {
        let waiting = self.waiting.iter().map(Vec::len).sum::<usize>();
        match (call, answer) {
            (Call::Offer(kind, job), Answer::Offered(Ok(()))) if waiting < PLACES => {
                self.accept(kind, job);
                Ok(None)
            }
            (Call::Offer(..), Answer::Offered(Err(FULL))) if waiting == PLACES => Ok(None),
            (Call::Offer(..), _) => Err("refused with 31 while exactly 16 wait, else accepted"),
            (Call::Turn, Answer::Turned(None)) if waiting == 0 => {
                self.turns += 1;
                Ok(None)
            }
            (Call::Turn, Answer::Turned(Some((kind, job)))) => self.take(kind, job).map(Some),
            (Call::Turn, _) => Err("a turn takes a job, or answers none while nobody waits"),
        }
    }

    fn accept(&mut self, kind: Kind, job: Job) {
        let waiting = Waiting {
            job,
            before: self.waiting[kind as usize].len(),
            since: self.turns,
        };
        self.waiting[kind as usize].push(waiting);
    }

    fn take(&mut self, kind: Kind, job: Job) -> Result<Taken, &'static str> {
        self.turns += 1;
        let jobs = &mut self.waiting[kind as usize];
        if jobs.first().is_none_or(|oldest| oldest.job != job) {
            return Err("what is taken is the oldest of its kind");
        }
        let oldest = jobs.remove(0);
        if self.one_is_overdue() {
            return Err("a job is taken within its turns");
        }
        Ok(Taken {
            kind,
            before: oldest.before,
            turns: self.turns - oldest.since,
        })
    }

    /// Whether some job still waits after the turn at which it was to be taken at the latest.
    fn one_is_overdue(&self) -> bool {
        let overdue = |kind: Kind, job: &Waiting| self.turns - job.since >= bound(kind, job.before);
        KINDS.into_iter().any(|kind| {
            let mut jobs = self.waiting[kind as usize].iter();
            jobs.any(|job| overdue(kind, job))
        })
    }
}
