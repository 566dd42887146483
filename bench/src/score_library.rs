//! The library's reader and writer of score texts, reached through two C functions that are made for
//! this comparison alone.

/// What the two functions add to the number of a ground.
const READ_REFUSED: i64 = 1_000_000_000;
const WRITE_REFUSED: i64 = 1_000;

#[cfg(score_library)]
mod linked {
    extern "C" {
        fn gurandyo_test_read_score(text: *const u8, length: usize) -> i64;
        fn gurandyo_test_write_score(number: i64, out: *mut u8, out_length: usize) -> i64;
    }

    pub const PRESENT: bool = true;

    pub fn read(text: &[u8]) -> i64 {
        // SAFETY: the pointer goes with its own length.
        unsafe { gurandyo_test_read_score(text.as_ptr(), text.len()) }
    }

    pub fn write(number: i64, out: &mut [u8]) -> i64 {
        // SAFETY: the pointer goes with its own length.
        unsafe { gurandyo_test_write_score(number, out.as_mut_ptr(), out.len()) }
    }
}

#[cfg(not(score_library))]
mod linked {
    pub const PRESENT: bool = false;

    pub fn read(_text: &[u8]) -> i64 {
        unreachable!("the library is not linked")
    }

    pub fn write(_number: i64, _out: &mut [u8]) -> i64 {
        unreachable!("the library is not linked")
    }
}

/// Whether the archive was there when this program was built; without it nothing may be called.
pub use linked::PRESENT;
pub use linked::{read, write};

/// The number that the library's reader answers in such a case.
pub fn read_answer(read: Result<i64, u8>) -> i64 {
    read.unwrap_or_else(|ground| READ_REFUSED + ground as i64)
}

/// The number that the library's writer answers in such a case.
pub fn write_answer(written: Result<usize, u8>) -> i64 {
    match written {
        Ok(length) => length as i64,
        Err(ground) => WRITE_REFUSED + ground as i64,
    }
}
