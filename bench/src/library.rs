//! The proved library, reached through its one C function.

/// The scratch that the best chain needs (document 02, j).
const SCRATCH: usize = 256;
/// The bytes of output that hold every report.
const ROOM: usize = 256;
/// More than that, so that writing too far is seen.
const OUT: usize = 2 * ROOM;
/// What the lent memory holds before a call.
const DIRT: u8 = 0xA5;
const SCRATCH_DIRT: u64 = 0xA5A5_A5A5_A5A5_A5A5;

#[cfg(library)]
mod linked {
    extern "C" {
        fn gurandyo_report(
            input: *const u8,
            input_len: usize,
            scratch: *mut u64,
            scratch_len: usize,
            out: *mut u8,
            out_len: usize,
        ) -> usize;
    }

    pub const PRESENT: bool = true;

    pub fn report(input: &[u8], scratch: &mut [u64], out: &mut [u8]) -> usize {
        // SAFETY: every pointer goes with its own length, and the three parts do not overlap.
        unsafe {
            gurandyo_report(
                input.as_ptr(),
                input.len(),
                scratch.as_mut_ptr(),
                scratch.len(),
                out.as_mut_ptr(),
                out.len(),
            )
        }
    }
}

#[cfg(not(library))]
mod linked {
    pub const PRESENT: bool = false;

    pub fn report(_input: &[u8], _scratch: &mut [u64], _out: &mut [u8]) -> usize {
        unreachable!("the library is not linked")
    }
}

pub struct Library {
    scratch: Vec<u64>,
    out: Vec<u8>,
}

impl Library {
    /// Nothing if the archive was not there when this program was built.
    pub fn open() -> Option<Library> {
        linked::PRESENT.then(|| Library {
            scratch: vec![0; SCRATCH],
            out: vec![0; OUT],
        })
    }

    /// The printed lines for an input.
    pub fn report(&mut self, input: &[u8]) -> &[u8] {
        let length = linked::report(input, &mut self.scratch, &mut self.out);
        &self.out[..length]
    }

    /// The printed lines again, with the lent memory dirty before and looked at after.
    pub fn report_watched(&mut self, input: &[u8]) -> Result<&[u8], &'static str> {
        self.scratch.fill(SCRATCH_DIRT);
        self.out.fill(DIRT);
        let length = linked::report(input, &mut self.scratch, &mut self.out);
        if length > OUT {
            return Err("the answered length is beyond the output");
        }
        if self.out[length..].iter().any(|&byte| byte != DIRT) {
            return Err("a byte beyond the answered length was touched");
        }
        // Only an accepted input comes as far as the best chain, which leaves the scratch zero.
        if self.out.starts_with(b"score") && self.scratch.iter().any(|&word| word != 0) {
            return Err("the scratch was not left zero");
        }
        Ok(&self.out[..length])
    }

    /// Whether too little scratch or output writes nothing and leaves both as they were.
    pub fn turns_down_short_memory(&mut self, input: &[u8]) -> bool {
        let sizes = [
            (SCRATCH - 1, OUT),
            (SCRATCH, ROOM - 1),
            (0, OUT),
            (SCRATCH, 0),
        ];
        sizes.iter().all(|&(numbers, bytes)| {
            self.scratch.fill(SCRATCH_DIRT);
            self.out.fill(DIRT);
            linked::report(input, &mut self.scratch[..numbers], &mut self.out[..bytes]) == 0
                && self.scratch.iter().all(|&word| word == SCRATCH_DIRT)
                && self.out.iter().all(|&byte| byte == DIRT)
        })
    }
}
