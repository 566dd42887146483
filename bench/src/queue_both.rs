//! Both references side by side, held to each other and to what the request promises of waiting.

use crate::queue_counts::Counts;
use crate::queue_records::{Answer, Call, Kind, Queue, KINDS};
use crate::queue_waits::Waits;
use crate::queues::{Plain, Quick};

#[derive(Clone, Default)]
pub struct Both {
    plain: Plain,
    quick: Quick,
    waits: Waits,
}

impl Both {
    /// One call on both.
    pub fn called(&mut self, call: Call, counts: &mut Counts) -> Result<Answer, &'static str> {
        let urgent_waited = !self.plain.waiting(Kind::Urgent).is_empty();
        let answer = self.plain.called(call);
        if self.quick.called(call) != answer {
            return Err("the quick reference answers otherwise");
        }
        let taken = self.waits.see(call, answer)?;
        if !KINDS.into_iter().all(|kind| self.waits_as_accepted(kind)) {
            return Err("what was accepted is what was taken and then what waits");
        }
        counts.add(call, answer, urgent_waited, taken);
        Ok(answer)
    }

    fn waits_as_accepted(&self, kind: Kind) -> bool {
        let waiting = self.plain.waiting(kind);
        self.waits.jobs(kind).eq(waiting.iter().copied())
    }
}
