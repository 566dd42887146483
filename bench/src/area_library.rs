//! The library's two calls on open areas, reached through C functions that are made for this comparison
//! alone: each opens a session on two texts and a deck and lists the areas of one seed.

use crate::areas::Order;
use crate::reference::parts_of;

#[cfg(area_library)]
mod linked {
    use crate::areas::Order;

    extern "C" {
        fn gurandyo_test_areas(
            q: *const u8,
            q_length: usize,
            t: *const u8,
            t_length: usize,
            deck: *const u8,
            deck_length: usize,
            number: usize,
            out: *mut u8,
            out_length: usize,
        ) -> i64;
        fn gurandyo_test_areas_in_paper_order(
            q: *const u8,
            q_length: usize,
            t: *const u8,
            t_length: usize,
            deck: *const u8,
            deck_length: usize,
            number: usize,
            out: *mut u8,
            out_length: usize,
        ) -> i64;
    }

    pub const PRESENT: bool = true;

    pub fn list(parts: [&[u8]; 3], number: usize, order: Order, out: &mut [u8]) -> i64 {
        let [q, t, deck] = parts;
        let call = match order {
            Order::RisingA => gurandyo_test_areas,
            Order::Paper => gurandyo_test_areas_in_paper_order,
        };
        // SAFETY: each pointer goes with its own length.
        unsafe {
            call(
                q.as_ptr(),
                q.len(),
                t.as_ptr(),
                t.len(),
                deck.as_ptr(),
                deck.len(),
                number,
                out.as_mut_ptr(),
                out.len(),
            )
        }
    }
}

#[cfg(not(area_library))]
mod linked {
    use crate::areas::Order;

    pub const PRESENT: bool = false;

    pub fn list(_parts: [&[u8]; 3], _number: usize, _order: Order, _out: &mut [u8]) -> i64 {
        unreachable!("the library is not linked")
    }
}

/// Whether the archive was there when this program was built; without it nothing may be called.
pub use linked::PRESENT;

/// Lists the areas of a seed of an input, which is Q, a line feed, T, a line feed and a deck.
pub fn list(input: &[u8], number: usize, order: Order, out: &mut [u8]) -> i64 {
    linked::list(parts_of(input), number, order, out)
}

/// The number that the library answers in such a case.
pub fn answer(listed: Result<usize, u8>) -> i64 {
    match listed {
        Ok(count) => count as i64,
        Err(ground) => -(ground as i64),
    }
}
