//! Calls of a queue and their answers, and the bytes that stand for them.

/// The bytes of a call, and of its answer.
pub const RECORD: usize = 5;
/// The first byte of an offer, and of a turn that took a job, by the kind.
const NUMBERS: [u8; 2] = [1, 2];

#[derive(Clone, Copy, PartialEq, Eq, Debug)]
pub enum Kind {
    Urgent,
    Ordinary,
}

pub const KINDS: [Kind; 2] = [Kind::Urgent, Kind::Ordinary];

#[derive(Clone, Copy, PartialEq, Eq, Default, Debug)]
pub struct Job {
    pub query: u16,
    pub structure: u16,
}

#[derive(Clone, Copy, PartialEq, Eq, Debug)]
pub enum Call {
    Offer(Kind, Job),
    Turn,
}

/// What an offer answers: nothing, or the ground of a refusal.
pub type Offered = Result<(), u8>;
/// What a turn answers: the job that it took, or none.
pub type Turned = Option<(Kind, Job)>;

#[derive(Clone, Copy, PartialEq, Eq, Debug)]
pub enum Answer {
    Offered(Offered),
    Turned(Turned),
}

/// A queue that is changed by its calls.
pub trait Queue {
    fn offered(&mut self, kind: Kind, job: Job) -> Offered;
    fn turned(&mut self) -> Turned;

    fn called(&mut self, call: Call) -> Answer {
        match call {
            Call::Offer(kind, job) => Answer::Offered(self.offered(kind, job)),
            Call::Turn => Answer::Turned(self.turned()),
        }
    }
}

/// A job told apart from others by a number, which is spread over its bytes.
pub fn job_of(number: u16) -> Job {
    let query = number.wrapping_mul(0x0103);
    Job {
        query,
        structure: !query,
    }
}

fn record(first: u8, job: Job) -> [u8; RECORD] {
    let [query_high, query_low] = job.query.to_be_bytes();
    let [structure_high, structure_low] = job.structure.to_be_bytes();
    [first, query_high, query_low, structure_high, structure_low]
}

pub fn bytes_of_call(call: Call) -> [u8; RECORD] {
    match call {
        Call::Offer(kind, job) => record(NUMBERS[kind as usize], job),
        Call::Turn => record(0, Job::default()),
    }
}

fn bytes_of_offered(offered: Offered) -> [u8; RECORD] {
    record(offered.err().unwrap_or(0), Job::default())
}

fn bytes_of_turned(turned: Turned) -> [u8; RECORD] {
    match turned {
        None => [0; RECORD],
        Some((kind, job)) => record(NUMBERS[kind as usize], job),
    }
}

pub fn bytes_of_answer(answer: Answer) -> [u8; RECORD] {
    match answer {
        Answer::Offered(offered) => bytes_of_offered(offered),
        Answer::Turned(turned) => bytes_of_turned(turned),
    }
}

/// Of a turn the numbers are left out of account.
pub fn call_of(bytes: &[u8; RECORD]) -> Call {
    let [first, query_high, query_low, structure_high, structure_low] = *bytes;
    let job = Job {
        query: u16::from_be_bytes([query_high, query_low]),
        structure: u16::from_be_bytes([structure_high, structure_low]),
    };
    match first {
        1 => Call::Offer(Kind::Urgent, job),
        2 => Call::Offer(Kind::Ordinary, job),
        _ => Call::Turn,
    }
}

/// The whole records of a list of calls.
pub fn calls_of(list: &[u8]) -> impl Iterator<Item = Call> + '_ {
    let (records, _) = list.as_chunks();
    records.iter().map(call_of)
}

/// Calls in words: `u1/2` is an urgent offer of query 1 and structure 2, `o1/2` an ordinary one, `t` a turn.
pub fn spelled(list: &[u8]) -> String {
    let words = calls_of(list).map(|call| match call {
        Call::Offer(Kind::Urgent, job) => format!("u{}/{}", job.query, job.structure),
        Call::Offer(Kind::Ordinary, job) => format!("o{}/{}", job.query, job.structure),
        Call::Turn => "t".to_string(),
    });
    words.collect::<Vec<String>>().join(" ")
}

/// What the library's C function does: each whole call, as long as its answer has room; how many were made.
pub fn answer_all(queue: &mut impl Queue, list: &[u8], out: &mut [u8]) -> usize {
    let (calls, _) = list.as_chunks();
    let (rooms, _) = out.as_chunks_mut();
    for (call, room) in calls.iter().zip(&mut *rooms) {
        *room = match call_of(call) {
            Call::Offer(kind, job) => bytes_of_offered(queue.offered(kind, job)),
            Call::Turn => bytes_of_turned(queue.turned()),
        };
    }
    calls.len().min(rooms.len())
}
