//! The library's queue, reached through a C function that is made for this comparison alone: it starts a queue,
//! makes a list of calls and writes their answers.

#[cfg(queue_library)]
mod linked {
    extern "C" {
        fn gurandyo_test_queue(
            calls: *const u8,
            calls_length: usize,
            out: *mut u8,
            out_length: usize,
        ) -> usize;
    }

    pub const PRESENT: bool = true;

    pub fn answer_all(list: &[u8], out: &mut [u8]) -> usize {
        // SAFETY: each pointer goes with its own length.
        unsafe { gurandyo_test_queue(list.as_ptr(), list.len(), out.as_mut_ptr(), out.len()) }
    }
}

#[cfg(not(queue_library))]
mod linked {
    pub const PRESENT: bool = false;

    pub fn answer_all(_list: &[u8], _out: &mut [u8]) -> usize {
        unreachable!("the library is not linked")
    }
}

pub use linked::answer_all;
/// Whether the archive was there when this program was built; without it nothing may be called.
pub use linked::PRESENT;
