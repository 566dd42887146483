//! All lists of calls up to a length, each call an urgent offer, an ordinary one or a turn. A job has the number of
//! its place in the list, so that no two are alike.

use crate::queue_both::Both;
use crate::queue_calls::{fail, hold_library};
use crate::queue_counts::Counts;
use crate::queue_records::{bytes_of_answer, bytes_of_call, job_of, Call, Kind, KINDS, RECORD};

/// An offer of a kind, or a turn.
pub type Way = Option<Kind>;

/// One list that is being grown, with its answers.
struct Walk<'a> {
    calls: Vec<u8>,
    answers: Vec<u8>,
    memory: Vec<u8>,
    counts: &'a mut Counts,
    lists: usize,
}

impl Walk<'_> {
    fn push(&mut self, both: &mut Both, way: Way) {
        let job = job_of((self.calls.len() / RECORD) as u16);
        let call = way.map_or(Call::Turn, |kind| Call::Offer(kind, job));
        self.calls.extend(bytes_of_call(call));
        match both.called(call, self.counts) {
            Ok(answer) => self.answers.extend(bytes_of_answer(answer)),
            Err(fault) => fail(fault, &self.calls),
        }
    }

    fn pop(&mut self) {
        self.calls.truncate(self.calls.len() - RECORD);
        self.answers.truncate(self.answers.len() - RECORD);
    }

    /// This list, and every one that goes on for up to so many calls.
    fn visit(&mut self, both: &Both, more: usize) {
        self.lists += 1;
        hold_library(&self.calls, &self.answers, &mut self.memory);
        if more == 0 {
            return;
        }
        for way in [Some(Kind::Urgent), Some(Kind::Ordinary), None] {
            let mut next = both.clone();
            self.push(&mut next, way);
            self.visit(&next, more - 1);
            self.pop();
        }
    }
}

/// All lists that begin with some calls and go on for up to so many; how many there are.
pub fn lists_from(beginning: &[Way], more: usize, counts: &mut Counts) -> usize {
    let mut both = Both::default();
    let mut walk = Walk {
        calls: Vec::new(),
        answers: Vec::new(),
        memory: Vec::new(),
        counts,
        lists: 0,
    };
    for &way in beginning {
        walk.push(&mut both, way);
    }
    walk.visit(&both, more);
    walk.lists
}

/// So many jobs of each kind are offered and taken, then so many of each kind are offered and wait.
pub fn beginning(served: usize, waiting: [usize; 2]) -> Vec<Way> {
    let mut ways = Vec::new();
    for kind in KINDS {
        ways.extend([Some(kind)].repeat(served));
        ways.extend([None].repeat(served));
    }
    for kind in KINDS {
        ways.extend([Some(kind)].repeat(waiting[kind as usize]));
    }
    ways
}
